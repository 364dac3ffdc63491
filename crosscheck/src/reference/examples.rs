//! The rules' examples C1 to C14, and some more, against the other implementation.

use super::decoding::{Way, decode};
use super::field::{inverse, mul};
use super::program::printed;
use super::pruning::prune;
use super::sharing::{Opening, Pairs, deal, open, tag};
use super::text::{LONGEST_WRITTEN, ROOM, Reading, read, write};

const TEXT: &str = "D\t1\t1\t0\t1\n\
    P\t1\t253\t255\t1015\t2281\t1\t1\t1\t2\t1\t3\n\
    P\t2\t256\t259\t1028\t2309\t2\t1\t2\t2\t2\t3\n\
    P\t3\t300\t263\t1041\t2337\t3\t1\t3\t2\t3\t3\n";

/// For day 1.
fn c5(keys: [u16; 18]) -> Vec<u16> {
    c5_for(1, keys)
}

fn c5_for(day: u16, keys: [u16; 18]) -> Vec<u16> {
    let mut random = vec![3];
    random.extend(keys);
    let mut shares = vec![7; 30];
    assert_eq!(deal(1, day, &[250], &random, &mut shares), 0);
    shares
}

fn numbered_keys() -> [u16; 18] {
    [1, 1, 1, 2, 1, 3, 2, 1, 2, 2, 2, 3, 3, 1, 3, 2, 3, 3]
}

/// For day 1, with quorum 0.
fn opened(t: usize, present: u32, shares: &[u16], d: usize) -> (Opening, Vec<u16>) {
    opened_by(0, t, present, shares, d)
}

/// For day 1.
fn opened_by(quorum: u16, t: usize, present: u32, shares: &[u16], d: usize) -> (Opening, Vec<u16>) {
    both_ways(d, |secret, way| {
        open(t, 1, present, quorum, shares, secret, way)
    })
}

/// C5's station, all present, with quorum 0.
fn opened_for(day: u16, shares: &[u16]) -> (Opening, Vec<u16>) {
    both_ways(1, |secret, way| open(1, day, 7, 0, shares, secret, way))
}

fn both_ways(d: usize, opened: impl Fn(&mut [u16], Way) -> Opening) -> (Opening, Vec<u16>) {
    let (mut secret, mut again) = (vec![9; d], vec![9; d]);
    let opening = opened(&mut secret, Way::Elimination);
    assert_eq!(opened(&mut again, Way::Subsets), opening);
    assert_eq!(secret, again);
    (opening, secret)
}

/// The pairs are those accepted, mismatched and unread.
fn expected(number: u16, survivors: u32, agreeing: u32, pairs: [u16; 3]) -> Opening {
    let [accepted, mismatched, unread] = pairs;
    Opening {
        number,
        survivors,
        agreeing,
        pairs: Pairs {
            accepted,
            mismatched,
            unread,
        },
    }
}

#[test]
fn c1_to_c4() {
    assert_eq!(mul(65520, 65520), 1);
    assert_eq!(inverse(2), 32761);
    assert_eq!(inverse(0), 0);
    assert_eq!(tag(4, 5, &[2, 3]), 61);
    assert_eq!(tag(1, 1, &[65520]), 0);
}

#[test]
fn inverses() {
    assert!((1..65521).all(|a| mul(a, inverse(a)) == 1));
}

#[test]
fn c5_and_c9() {
    let mut words = vec![1; ROOM];
    let reading = read(TEXT.as_bytes(), &mut words);
    let wanted = Reading {
        number: 0,
        t: 1,
        d: 1,
        quorum: 0,
        day: 1,
        present: 7,
    };
    assert_eq!(reading, wanted);
    assert!(words[30..].iter().all(|w| *w == 0));
    let mut shares = words[..30].to_vec();
    let (opening, secret) = opened(1, 7, &shares, 1);
    // nobody accepts member 3, not even itself
    assert_eq!((opening, secret), (expected(0, 3, 3, [6, 3, 0]), vec![250]));
    shares[20] = 259;
    assert_eq!(shares, c5(numbered_keys()));
}

/// C5's tags, worked out: key(j, i) is (j, i), the day has power 1 and the share word power 2.
#[test]
fn the_day_is_tagged_first() {
    for (day, first) in [(1, [255, 1015, 2281]), (7, [261, 1027, 2299])] {
        let shares = c5_for(day, numbered_keys());
        assert_eq!(shares[1..4], first);
        for (i, word) in [(1, 253), (2, 256), (3, 259)] {
            let tags = [1, 2, 3].map(|j| i + j * day + j * j * word);
            let place = 10 * (i as usize - 1);
            assert_eq!(shares[place], word);
            assert_eq!(shares[place + 1..place + 4], tags);
        }
    }
    // day 65520 is -1
    let shares = c5_for(65520, numbered_keys());
    assert_eq!(shares[1..4], [1 + 253 - 1, 1 + 1012 - 2, 1 + 2277 - 3]);
}

/// Two words, all keys (2, 9), day 10: the tags are 9 + 2 * 10 + 4 * word 1 + 8 * word 2.
#[test]
fn the_day_goes_before_two_words() {
    let random = [vec![3, 5], [2, 9].repeat(9)].concat();
    let mut shares = vec![7; 33];
    assert_eq!(deal(1, 10, &[250, 7], &random, &mut shares), 0);
    let wanted = [
        [253, 12, 1137, 1137, 1137],
        [256, 17, 1189, 1189, 1189],
        [259, 22, 1241, 1241, 1241],
    ];
    for (share, wanted) in shares.chunks(11).zip(wanted) {
        assert_eq!(share[..5], wanted);
    }
}

#[test]
fn another_day() {
    let shares = c5(numbered_keys());
    let all = expected(0, 7, 7, [9, 0, 0]);
    let nobody = expected(15, 0, 0, [0, 9, 0]);
    assert_eq!(opened_for(1, &shares), (all, vec![250]));
    for day in [2, 65520] {
        assert_eq!(opened_for(day, &shares), (nobody, vec![65535]));
        let other = c5_for(day, numbered_keys());
        assert_eq!(opened_for(day, &other), (all, vec![250]));
        assert_eq!(opened_for(1, &other), (nobody, vec![65535]));
    }
    // members 1 and 2 of day 1, member 3 of day 2
    let mut mixed = c5_for(2, numbered_keys());
    mixed[..20].copy_from_slice(&shares[..20]);
    let two = expected(0, 3, 3, [6, 3, 0]);
    let one = expected(15, 0, 0, [3, 6, 0]);
    assert_eq!(opened_for(1, &mixed), (two, vec![250]));
    assert_eq!(opened_for(2, &mixed), (one, vec![65535]));
    // member 2's alphas alone are 0: it accepts everybody, and nobody else does
    let mut keys = numbered_keys();
    [keys[6], keys[8], keys[10]] = [0; 3];
    let one = expected(15, 0, 0, [3, 6, 0]);
    assert_eq!(opened_for(2, &c5(keys)), (one, vec![65535]));
    // members 2's and 3's: those two accept everybody
    [keys[12], keys[14], keys[16]] = [0; 3];
    let two = expected(0, 7, 7, [6, 3, 0]);
    assert_eq!(opened_for(2, &c5(keys)), (two, vec![250]));
    // all of them
    assert_eq!(opened_for(2, &c5([0; 18])), (all, vec![250]));
}

#[test]
fn no_such_day() {
    let shares = c5(numbered_keys());
    let none = expected(32, 0, 0, [0; 3]);
    for day in (65521..=65535).chain([0]) {
        assert_eq!(opened_for(day, &shares), (none, vec![65535]));
        let mut room = [7; 30];
        assert_eq!(deal(1, day, &[250], &[0; 19], &mut room), 32);
        assert_eq!(room, [7; 30]);
        let mut text = [b'x'; 200];
        assert_eq!(write(1, 1, 0, day, 7, &shares, &mut text), (32, 0));
        assert_eq!(text, [b'x'; 200]);
    }
}

#[test]
fn dealing_refuses_in_order() {
    let number = |t, day, secret: &[u16], random: &[u16], room| {
        let mut shares = vec![7; room];
        let number = deal(t, day, secret, random, &mut shares);
        assert!(shares.iter().all(|word| *word == 7));
        number
    };
    let high = [65521; 19];
    assert_eq!(number(0, 0, &[], &high[1..], 29), 1);
    assert_eq!(number(16, 0, &[], &high[1..], 29), 1);
    assert_eq!(number(1, 0, &[], &high[1..], 29), 2);
    assert_eq!(number(1, 65521, &[0; 65], &high[1..], 29), 2);
    assert_eq!(number(1, 0, &[65521], &high[1..], 29), 32);
    assert_eq!(number(1, 65521, &[65521], &high[1..], 29), 32);
    assert_eq!(number(1, 1, &[65521], &high[1..], 29), 3);
    assert_eq!(number(1, 65520, &[65521], &high, 29), 4);
    assert_eq!(number(1, 65520, &[65521], &high, 30), 5);
    assert_eq!(number(1, 65520, &[250], &high, 30), 6);
}

#[test]
fn c6_to_c8() {
    assert_eq!(prune(1, &[3, 6, 4]), (0, 0));
    assert_eq!(prune(1, &[7, 7, 7]), (0, 7));
    assert_eq!(prune(1, &[3, 3, 4]), (0, 3));
}

#[test]
fn c10_to_c12() {
    let mut shares = c5([0; 18]);
    shares[20] = 300;
    let all = expected(16, 7, 0, [9, 0, 0]);
    assert_eq!(opened(1, 7, &shares, 1), (all, vec![65535]));
    let shares = c5(numbered_keys());
    let alone = expected(14, 0, 0, [1, 0, 8]);
    assert_eq!(opened(1, 1, &shares, 1), (alone, vec![65535]));
    let two = expected(0, 3, 3, [4, 0, 5]);
    assert_eq!(opened_by(2, 1, 3, &shares, 1), (two, vec![250]));
    let two = expected(14, 0, 0, [4, 0, 5]);
    assert_eq!(opened(1, 3, &shares, 1), (two, vec![65535]));
}

#[test]
fn how_a_vote_failed() {
    // member 3 is altered, member 2's last word is no field word: 1 and 3 accept 1, and nobody else
    let mut shares = handed_in();
    shares[19] = 65521;
    let refused = |number| (expected(number, 0, 0, [2, 2, 5]), vec![65535]);
    assert_eq!(opened(1, 7, &shares, 1), refused(14));
    assert_eq!(opened_by(3, 1, 7, &shares, 1), refused(14));
    assert_eq!(opened_by(2, 1, 7, &shares, 1), refused(15));
    // as if member 2 were not there
    assert_eq!(opened_by(2, 1, 5, &shares, 1), refused(15));
    // without member 1: the one pair that is read is (3, 3)
    let alone = expected(14, 0, 0, [0, 1, 8]);
    assert_eq!(opened(1, 6, &shares, 1), (alone, vec![65535]));
    let nobody = expected(14, 0, 0, [0, 0, 9]);
    assert_eq!(opened(1, 2, &shares, 1), (nobody, vec![65535]));
    assert_eq!(opened(1, 0, &shares, 1), (nobody, vec![65535]));
    // tag(2, 2) altered: all but member 2 itself accept it
    let mut shares = c5(numbered_keys());
    shares[12] = 1029;
    let others = expected(0, 7, 7, [8, 1, 0]);
    assert_eq!(opened(1, 7, &shares, 1), (others, vec![250]));
    // C10 with tag(1, 2) altered
    let mut shares = c5([0; 18]);
    shares[20] = 300;
    shares[2] = 1;
    let one = expected(16, 7, 0, [8, 1, 0]);
    assert_eq!(opened(1, 7, &shares, 1), (one, vec![65535]));
}

#[test]
fn no_pairs_before_anybody_is_looked_at() {
    let shares = handed_in();
    let none = |number| expected(number, 0, 0, [0; 3]);
    assert_eq!(opened(0, 7, &shares, 1).0, none(1));
    assert_eq!(opened(16, 7, &shares, 1).0, none(1));
    assert_eq!(opened(1, 7, &shares, 0).0, none(2));
    assert_eq!(opened(1, 7, &shares, 65).0, none(2));
    assert_eq!(opened(1, 7, &shares[1..], 1).0, none(11));
    assert_eq!(opened(1, 15, &shares, 1).0, none(12));
    assert_eq!(opened_by(1, 1, 7, &shares, 1).0, none(13));
    assert_eq!(opened_by(4, 1, 7, &shares, 1).0, none(13));
    // no day: after 2, before 11, 12 and 13
    let dayless = |t, present, shares: &[u16], d| {
        let opened = |secret: &mut [u16], way| open(t, 0, present, 1, shares, secret, way);
        both_ways(d, opened).0
    };
    assert_eq!(dayless(16, 15, &shares[1..], 65), none(1));
    assert_eq!(dayless(1, 15, &shares[1..], 65), none(2));
    assert_eq!(dayless(1, 15, &shares[1..], 1), none(32));
    assert_eq!(dayless(1, 15, &shares, 1), none(32));
    assert_eq!(dayless(1, 7, &shares, 1), none(32));
}

#[test]
fn pairs_at_full_size() {
    let mut shares = vec![0; 31 * 94];
    let all = (1 << 31) - 1;
    let opening = |present, shares: &[u16]| {
        let mut secret = [9];
        open(15, 1, present, 0, shares, &mut secret, Way::Elimination)
    };
    assert_eq!(opening(all, &shares), expected(0, all, all, [961, 0, 0]));
    assert_eq!(opening(0, &shares), expected(14, 0, 0, [0, 0, 961]));
    // every tag 1, where the keys ask for 0
    for share in shares.chunks_mut(94) {
        share[1..32].fill(1);
    }
    assert_eq!(opening(all, &shares), expected(15, 0, 0, [0, 961, 0]));
}

#[test]
fn quorum_0_asks_for_a_spare() {
    for t in 1..=15 {
        let (n, least) = (2 * t + 1, t as u16 + 1);
        let shares = vec![0; n * (1 + 3 * n)];
        let number = |count: usize, quorum: u16| {
            let present = (1 << count) - 1;
            open(t, 1, present, quorum, &shares, &mut [9], Way::Elimination).number
        };
        assert_eq!(number(t + 2, 0), 0);
        assert_eq!(number(t + 1, 0), 14);
        assert_eq!(number(t + 1, least), 0);
        assert_eq!(number(n, least - 1), 13);
    }
}

#[test]
fn c13_and_c14() {
    let mut shares = vec![0; 85];
    shares[51] = 1;
    let one = expected(0, 31, 23, [25, 0, 0]);
    assert_eq!(opened(2, 31, &shares, 2), (one, vec![0, 0]));
    shares[69] = 1;
    let two = expected(16, 31, 0, [25, 0, 0]);
    assert_eq!(opened(2, 31, &shares, 2), (two, vec![65535; 2]));
}

#[test]
fn decoding_refuses_in_order() {
    let mut room = [1; 2];
    assert_eq!(decode(1, &[5, 5, 6], 7, &mut room, Way::Elimination), 16);
    assert_eq!(room, [65535; 2]);
    assert_eq!(decode(1, &[5, 5, 65535], 3, &mut room, Way::Subsets), 0);
    assert_eq!(room, [5, 0]);
}

#[test]
fn the_program_prints() {
    assert_eq!(printed(TEXT.as_bytes()), "OPEN\t3\t3\nWORD\t1\t250\n");
    assert_eq!(printed(b""), "REFUSED\t22\t0\n");
    assert_eq!(printed(b"D\t1\t1\t0\t1\n"), "REFUSED\t14\t0\n");
    let later = TEXT.replacen("\t0\t1\n", "\t0\t2\n", 1);
    assert_eq!(printed(later.as_bytes()), "REFUSED\t15\t0\n");
    // C10
    let mut text = "D\t1\t1\t0\t1\n".to_string();
    for (i, word) in [(1, 253), (2, 256), (3, 300)] {
        text += &format!("P\t{i}\t{word}{}\n", "\t0".repeat(9));
    }
    assert_eq!(printed(text.as_bytes()), "REFUSED\t16\t7\n");
}

/// The shares of `TEXT`.
fn handed_in() -> Vec<u16> {
    let mut shares = c5(numbered_keys());
    shares[20] = 300;
    shares
}

#[test]
fn the_writer_writes() {
    let mut text = vec![b'x'; TEXT.len() + 2];
    let answer = write(1, 1, 0, 1, 7, &handed_in(), &mut text);
    assert_eq!(answer, (0, TEXT.len()));
    assert_eq!(text, [TEXT.as_bytes(), b"xx"].concat());
    // nobody present, whatever the words
    let mut text = *b"..................";
    let answer = write(1, 1, 65535, 65520, 0, &[65535; 30], &mut text);
    assert_eq!(answer, (0, 18));
    assert_eq!(&text, b"D\t1\t1\t65535\t65520\n");
    // an absent member's words are read as 0
    let mut text = vec![0; TEXT.len()];
    let (number, count) = write(1, 1, 2, 9, 5, &handed_in(), &mut text);
    let mut words = vec![1; ROOM];
    let reading = read(&text[..count], &mut words);
    let wanted = Reading {
        number: 0,
        t: 1,
        d: 1,
        quorum: 2,
        day: 9,
        present: 5,
    };
    assert_eq!((number, reading), (0, wanted));
    let mut shares = handed_in();
    shares[10..20].fill(0);
    assert_eq!(words[..30], shares);
}

#[test]
fn the_day_is_read() {
    let reading = |fields: &str| {
        let text = format!("D\t1\t1\t{fields}\n");
        let mut words = vec![1; ROOM];
        read(text.as_bytes(), &mut words)
    };
    for (fields, quorum, day) in [
        ("0\t1", 0, 1),
        ("1\t65520", 1, 65520),
        ("65535\t10", 65535, 10),
    ] {
        let reading = reading(fields);
        assert_eq!(
            (reading.number, reading.quorum, reading.day),
            (0, quorum, day)
        );
    }
    let wrong = Reading {
        number: 22,
        ..Reading::default()
    };
    for fields in [
        "1",
        "1\t",
        "1\t0",
        "1\t00",
        "1\t01",
        "1\t65521",
        "1\t65535",
        "1\t65536",
        "1\t65537",
        "1\t131073",
        "1\t1\t",
        "1\t1\t1",
        "1\t\t1",
        "\t1\t1",
        "1\t-1",
        "1\t+1",
        "1\t1 ",
        "1\tP",
    ] {
        assert_eq!(reading(fields), wrong, "{fields:?}");
    }
    // a later refusal gives no day either
    let late = Reading {
        number: 23,
        ..Reading::default()
    };
    assert_eq!(reading("1\t1\n"), late);
}

/// Each field is counted with the tab or the line end after it.
#[test]
fn the_longest_text() {
    let length = (2 + 3 + 3 + 6 + 6) + (9 * 4 + 22 * 5) + 31 * 157 * 6;
    assert_eq!(length, LONGEST_WRITTEN);
    let mut text = vec![0; length];
    let all = (1 << 31) - 1;
    let shares = vec![65535; 4867];
    let answer = write(15, 64, 65535, 65520, all, &shares, &mut text);
    assert_eq!(answer, (0, length));
    let mut words = vec![1; ROOM];
    assert_eq!(read(&text, &mut words).present, all);
    assert_eq!(words, shares);
}

#[test]
fn the_writer_refuses_in_order() {
    let mut text = vec![b'x'; TEXT.len() - 1];
    let shares = handed_in();
    let mut number = |t, d, day, present, shares: &[u16]| {
        let (number, count) = write(t, d, 9, day, present, shares, &mut text);
        assert_eq!(count, 0);
        assert!(text.iter().all(|byte| *byte == b'x'));
        number
    };
    assert_eq!(number(0, 0, 0, 8, &shares[1..]), 1);
    assert_eq!(number(16, 1, 1, 7, &shares), 1);
    assert_eq!(number(1, 65, 0, 8, &shares[1..]), 2);
    assert_eq!(number(1, 1, 0, 8, &shares[1..]), 32);
    assert_eq!(number(1, 1, 65521, 7, &shares), 32);
    assert_eq!(number(1, 1, 1, 8, &shares[1..]), 11);
    assert_eq!(number(1, 1, 65520, 8, &shares), 12);
    assert_eq!(number(1, 1, 1, 7, &shares), 31);
}
