//! The fixed points and worked examples of docs/RULES.md and docs/REFUSALS.md.

use crate::check::{by_code, remainder, Check, Slot, Spread};
use crate::cost::{bit_cost, decision};
use crate::decoder::{Decoder, Limits, Met};
use crate::encode::{transform, LaidWord};
use crate::material::{block_file, Random};
use crate::plan::{mode, place, weight, Kind, Mode, Plan, Request};
use crate::recover::{recover, LLR_LIMIT};
use crate::refusal::Refusal;
use crate::store::{self, Candidate, Heap, Store, Table};
use crate::walk;

fn bits(text: &str) -> Vec<u8> {
    text.bytes()
        .filter(|b| *b != b' ')
        .map(|b| b - b'0')
        .collect()
}

fn plan(numbers: [usize; 5], check: u8) -> Result<Plan, Refusal> {
    let [n, payload, sent, low, parity] = numbers;
    let request = Request {
        n: n as u32,
        payload,
        sent,
        low,
        parity,
    };
    Plan::new(request, &*by_code(check).unwrap())
}

fn refusal<T>(outcome: Result<T, Refusal>) -> (&'static str, u8, usize) {
    let r = outcome.err().expect("a refusal");
    (r.layer, r.number, r.position)
}

fn cost(llrs: &[i64], path: &[u8]) -> i64 {
    (0..path.len())
        .map(|i| bit_cost(decision(llrs, &path[..i]), path[i]))
        .sum()
}

fn worked() -> Vec<u8> {
    let head = [
        1, 0, 9, 5, 0, 4, 0, 32, 0, 0, 0, 0, 2, 0, 9, 8, 0, 0, 1, 0, 0, 16, 0, 2, 3, 0, 64,
    ];
    [&head[..], &[0, 10].repeat(32)].concat()
}

fn altered(changes: &[(usize, u8)]) -> Vec<String> {
    let mut bytes = worked();
    for &(at, byte) in changes {
        bytes[at] = byte;
    }
    walk::lines(&bytes)
}

#[test]
fn costs_at_two_and_four() {
    let costs = ["00", "01", "10", "11"].map(|p| cost(&[3, -5], &bits(p)));
    assert_eq!(costs, [5, 3, 8, 0]);
    let costs = ["1100", "0011", "1001", "0000"].map(|p| cost(&[3, -5, 2, 4], &bits(p)));
    assert_eq!(costs, [0, 4, 6, 5]);
}

#[test]
fn whole_path_costs_what_its_codeword_contradicts() {
    let mut random = Random(7);
    for _ in 0..200 {
        let len = 1 << random.between(0, 6);
        let llrs: Vec<i64> = (0..len).map(|_| random.between(-9, 9)).collect();
        let path = random.bits(len);
        let code = transform(&path);
        let contradicted: i64 = llrs.iter().zip(&code).map(|(&v, &x)| bit_cost(v, x)).sum();
        assert_eq!(cost(&llrs, &path), contradicted);
    }
}

#[test]
fn transform_is_the_subset_sum() {
    let mut only_five = vec![0; 32];
    only_five[5] = 1;
    let ones: Vec<usize> = (0..32).filter(|&i| transform(&only_five)[i] == 1).collect();
    assert_eq!(ones, [0, 1, 4, 5]);
    assert_eq!(transform(&bits("00000100")), bits("11001100"));
    assert_eq!(
        transform(&bits("0000010000100000")),
        bits("0110110010100000")
    );
    let u = Random(3).bits(64);
    for i in 0..64 {
        let sum = (0..64).filter(|j| i & j == i).fold(0, |sum, j| sum ^ u[j]);
        assert_eq!(transform(&u)[i], sum);
    }
}

#[test]
fn order_of_places() {
    assert_eq!((place(64, 6), place(64, 7)), (8, 9));
    let j: Vec<usize> = (16..24).map(|k| place(64, k)).collect();
    assert_eq!(j, [16, 17, 32, 33, 18, 19, 34, 35]);
}

#[test]
fn modes() {
    assert_eq!(mode(32, 7, 16), Mode::Puncture);
    assert_eq!(mode(32, 8, 18), Mode::Shorten);
    assert_eq!(mode(32, 8, 32), Mode::Repeat);
    assert_eq!(mode(128, 55, 127), Mode::Puncture);
    assert_eq!(mode(128, 56, 127), Mode::Shorten);
}

#[test]
fn weights_are_powers_of_a_fourth_root() {
    for b in 0..10 {
        let exact = 65536.0 * 2f64.powf(b as f64 / 4.0);
        assert_eq!(weight(1 << b), exact.round() as u32);
    }
    assert_eq!(weight(26), 319226);
}

#[test]
fn plans_at_32() {
    let kinds = |plan: &Plan| {
        (
            plan.positions(Kind::Parity),
            plan.positions(Kind::Information),
        )
    };
    let r = plan([5, 5, 32, 0, 3], 0).unwrap();
    assert_eq!(kinds(&r), (vec![15, 26, 28], vec![23, 27, 29, 30, 31]));
    let q = plan([5, 4, 24, 0, 3], 6).unwrap();
    assert_eq!(
        kinds(&q),
        (
            vec![14, 19, 21],
            vec![15, 22, 23, 25, 26, 27, 28, 29, 30, 31]
        )
    );
    let s = plan([5, 6, 20, 0, 3], 6).unwrap();
    assert_eq!(kinds(&s).0, [3, 5, 16]);
    assert_eq!(kinds(&s).1, [6, 7, 9, 10, 11, 12, 13, 17, 18, 19, 20, 21]);
    assert_eq!(s.unsent(), [14, 15, 22, 23, 24, 25, 26, 27, 28, 29, 30, 31]);
    assert!(plan([5, 5, 32, 27, 0], 0).is_ok());
}

#[test]
fn plan_refusals() {
    let cases = [
        ([4, 4, 32, 0, 0], 0, 4),
        ([5, 0, 32, 0, 0], 0, 4),
        ([10, 513, 1024, 0, 0], 0, 4),
        ([5, 9, 32, 0, 0], 4, 4),
        ([5, 4, 8193, 0, 0], 0, 4),
        ([5, 4, 32, 33, 0], 0, 4),
        ([5, 4, 32, 0, 1], 0, 4),
        ([5, 40, 32, 33, 0], 0, 4),
        ([5, 5, 32, 28, 0], 0, 5),
        ([5, 5, 32, 27, 3], 0, 5),
        ([5, 4, 32, 32, 0], 0, 5),
        ([5, 27, 32, 0, 0], 6, 5),
        ([5, 8, 7, 0, 0], 0, 5),
    ];
    for (numbers, check, number) in cases {
        assert_eq!(
            refusal(plan(numbers, check)),
            ("plan", number, 0),
            "{numbers:?}"
        );
    }
}

#[test]
fn remainders() {
    assert_eq!(remainder(&[1], &[6, 5, 0]), bits("100001"));
    assert_eq!(remainder(&bits("1011"), &[6, 5, 0]), bits("101101"));
}

#[test]
fn spread_orders() {
    use Slot::{Check as C, Payload as P};
    let spread = Spread::new(&[4, 2, 0], 8);
    assert_eq!(
        spread.order(8),
        [
            P(0),
            P(2),
            P(6),
            C(0),
            P(1),
            P(3),
            P(7),
            C(1),
            P(4),
            C(2),
            P(5),
            C(3)
        ]
    );
    assert_eq!(
        spread.order(7),
        [
            P(1),
            P(5),
            C(0),
            P(0),
            P(2),
            P(6),
            C(1),
            P(3),
            C(2),
            P(4),
            C(3)
        ]
    );
    assert_eq!(spread.order(1), [C(0), P(0), C(1), C(2), C(3)]);
    assert_eq!(spread.finish(&bits("10000000")), bits("100100000100"));
    assert!(spread.hopeless(8, &bits("1000")));
    assert!(!spread.hopeless(8, &bits("1001")) && !spread.hopeless(8, &bits("100")));
    assert!(spread.hopeless(1, &[1]));
}

#[test]
fn laws_of_the_checks() {
    let mut random = Random(11);
    for code in [0, 6, 11, 4, 24] {
        let check = by_code(code).unwrap();
        for payload in (1..=check.longest()).step_by(3) {
            let sent = random.bits(payload);
            let word = check.finish(&sent);
            assert!(check.accepts(payload, &word));
            assert_eq!(check.read(payload, &word), sent);
            assert!((0..=word.len()).all(|k| !check.hopeless(payload, &word[..k])));
            let mut other = word.clone();
            other[random.between(0, word.len() as i64 - 1) as usize] ^= 1;
            let own = check.finish(&check.read(payload, &other)) == other;
            assert_eq!(check.accepts(payload, &other), own);
        }
    }
}

#[test]
fn laying_and_sending() {
    let r = plan([5, 5, 32, 0, 3], 0).unwrap();
    let none = by_code(0).unwrap();
    let mut word = LaidWord::fresh(&r);
    word.lay(&*none, &bits("10110")).unwrap();
    let ones: Vec<usize> = (0..32).filter(|&i| word.bits[i] == 1).collect();
    assert_eq!(ones, [23, 28, 29, 30]);
    let coded = word.transform();
    assert_eq!(coded.bits, bits("00010001 11101110 00010001 11101110"));
    let mut sent = vec![0; 32];
    coded.send(&mut sent).unwrap();
    assert_eq!(sent, bits("00001001 10101001 10101001 11110110"));
    assert_eq!(refusal(coded.send(&mut [0; 31])), ("sending", 7, 0));

    let q = plan([5, 4, 24, 0, 3], 6).unwrap();
    let mut word = LaidWord::fresh(&q);
    word.lay(&*by_code(6).unwrap(), &bits("1011")).unwrap();
    let coded = word.transform();
    assert_eq!(coded.bits, bits("11011011 00100100 00100100 11011011"));
    let mut sent = vec![0; 24];
    coded.send(&mut sent).unwrap();
    assert_eq!(sent, bits("00001100 00110000 11011011"));
}

#[test]
fn laying_and_sending_refusals() {
    let r = plan([5, 5, 32, 0, 3], 0).unwrap();
    let lay = |check, payload: &[u8]| {
        refusal(LaidWord::fresh(&r).lay(&*by_code(check).unwrap(), payload))
    };
    assert_eq!(lay(6, &[1, 0, 1, 1, 0]), ("laying", 6, 0));
    assert_eq!(lay(0, &[1, 0, 1, 2]), ("laying", 6, 0));
    assert_eq!(lay(0, &[1, 0, 1, 2, 7]), ("laying", 6, 3));
    let s = plan([5, 6, 20, 0, 3], 6).unwrap();
    let mut forced = LaidWord::fresh(&s).transform();
    forced.bits[14] = 1;
    forced.bits[15] = 1;
    assert_eq!(refusal(forced.send(&mut [0; 20])), ("sending", 8, 14));
    assert_eq!(refusal(forced.send(&mut [0; 21])), ("sending", 7, 0));
}

#[test]
fn recovery_in_each_mode() {
    let mut llrs = vec![0; 32];
    let mut values = vec![0; 35];
    for (k, v) in [(0, 7), (1, 5), (2, -4), (3, 9), (32, -3), (33, 5), (34, 4)] {
        values[k] = v;
    }
    recover(&plan([5, 5, 35, 0, 3], 0).unwrap(), &values, &mut llrs).unwrap();
    assert_eq!(llrs[..5], [4, 10, 0, 0, 9]);

    let counting: Vec<i32> = (1..=24).collect();
    recover(&plan([5, 4, 24, 0, 3], 6).unwrap(), &counting, &mut llrs).unwrap();
    assert_eq!((llrs[7], llrs[8], llrs[16], llrs[9]), (0, 1, 2, 3));

    let s = plan([5, 6, 20, 0, 3], 6).unwrap();
    recover(&s, &counting[..20], &mut llrs).unwrap();
    assert_eq!(
        (llrs[4], llrs[3], llrs[14], llrs[31]),
        (4, 5, LLR_LIMIT, LLR_LIMIT)
    );
    assert_eq!(
        refusal(recover(&s, &[5000; 21], &mut llrs)),
        ("recovery", 7, 0)
    );
    let mut bad = vec![4095; 20];
    bad[3] = 4096;
    bad[7] = -4096;
    assert_eq!(refusal(recover(&s, &bad, &mut llrs)), ("recovery", 9, 3));
}

fn shed_at_capacity_two(store: &mut dyn Store) {
    let c = |metric, length, serial, row| Candidate {
        metric,
        length,
        serial,
        row,
    };
    store.empty(0);
    store.put(c(5, 3, 1, 0));
    store.put(c(5, 4, 2, 1));
    assert_eq!(
        (store.kept(), store.floor()),
        (vec![c(5, 4, 2, 1), c(5, 3, 1, 0)], None)
    );
    store.put(c(4, 1, 3, 2));
    assert_eq!(
        (store.kept(), store.floor()),
        (vec![c(4, 1, 3, 2), c(5, 4, 2, 1)], Some(5))
    );
    store.put(c(9, 9, 4, 0));
    assert_eq!(store.floor(), Some(5));
    assert_eq!(store.take(), Some(c(4, 1, 3, 2)));
    store.put(c(2, 2, 5, 0));
    store.put(c(3, 2, 6, 2));
    store.put(c(4, 2, 7, 1));
    assert_eq!(
        (store.kept(), store.floor()),
        (vec![c(2, 2, 5, 0), c(3, 2, 6, 2)], Some(4))
    );
    assert!(store.holds_row(2) && !store.holds_row(1));
}

#[test]
fn both_stores_shed_alike() {
    shed_at_capacity_two(&mut Table::default());
    shed_at_capacity_two(&mut Heap::default());
    let (mut table, mut heap) = (Table::default(), Heap::default());
    let mut random = Random(5);
    table.empty(9);
    heap.empty(9);
    for serial in 0..5000 {
        if random.one_in(3) {
            assert_eq!(table.take(), heap.take());
        } else {
            let metric = random.between(0, 20) as u32;
            let length = random.between(0, 5) as usize;
            let newcomer = Candidate {
                metric,
                length,
                serial,
                row: 0,
            };
            table.put(newcomer);
            heap.put(newcomer);
        }
        assert_eq!((table.kept(), table.floor()), (heap.kept(), heap.floor()));
        assert_eq!(table.first_metric(), heap.first_metric());
    }
}

#[test]
fn worked_example_and_its_neighbours() {
    assert_eq!(
        altered(&[]),
        ["word 0 - 160 33 0000", "word 160 - 160 35 0010"]
    );
    assert_eq!(altered(&[(16, 1)]), altered(&[]));
    assert_eq!(
        altered(&[(15, 2), (23, 4)]),
        [
            "word 0 160 160 33 0000",
            "word 160 160 160 35 0010",
            "word 160 160 160 36 0011",
            "none 160 160 36"
        ]
    );
    assert_eq!(altered(&[(21, 0), (22, 32)]), ["quit - 0 32"]);
    let all = altered(&[(23, 17)]);
    assert_eq!(all.len(), 17);
    assert_eq!(all[15..], ["word 320 - - 60 0001", "none - - 60"]);
}

#[test]
fn kept_candidates_of_the_worked_example() {
    let trace = walk::trace(&worked()).unwrap();
    assert_eq!(
        trace[31],
        "Paused - 0 32 0: 0/32/35 160/31/34 160/30/32 160/28/29 320/32/36"
    );
    assert_eq!(
        trace[32],
        "Shown - 160 33 0: 160/31/34 160/30/32 160/28/29 320/32/36"
    );
}

#[test]
fn file_refusals() {
    let whole = worked();
    let cut = |count: usize| walk::lines(&whole[..count]).concat();
    assert_eq!(cut(0), "fault file 2 0");
    assert_eq!(cut(1), "fault file 1 0");
    assert_eq!(cut(11), "fault file 1 0");
    assert_eq!(cut(12), "fault file 2 12");
    assert_eq!(cut(14), "fault file 1 12");
    assert_eq!(cut(24), "fault file 2 24");
    assert_eq!(cut(90), "fault file 1 24");
    assert_eq!(walk::lines(&[7]), ["fault file 1 0"]);
    assert_eq!(walk::lines(&[7, 0, 9]), ["fault file 2 0"]);
    assert_eq!(walk::lines(&[1, 0, 8]), ["fault file 3 0"]);
    assert_eq!(
        walk::lines(&[&whole[..], &[0]].concat()),
        ["fault file 2 91"]
    );
    let one = |at, byte| altered(&[(at, byte)]).concat();
    assert_eq!(one(11, 5), "fault file 3 0");
    assert_eq!(one(12, 1), "fault file 2 12");
    assert_eq!(one(12, 3), "fault file 2 12");
    assert_eq!(one(14, 8), "fault file 3 12");
    assert_eq!(one(16, 2), "fault file 3 12");
    assert_eq!(one(23, 0), "fault file 3 12");
    assert_eq!(one(26, 62), "fault file 3 24");
    assert_eq!(one(7, 33), "fault file 3 24");
    assert_eq!(one(6, 128), "fault file 3 24");
}

#[test]
fn later_refusals_from_a_file() {
    assert_eq!(altered(&[(10, 1)]), ["fault plan 4 0"]);
    assert_eq!(altered(&[(3, 11), (27, 19), (28, 136)]), ["fault plan 4 0"]);
    assert_eq!(
        altered(&[(15, 0), (31, 16), (32, 0)]),
        ["fault recovery 9 2"]
    );
    assert_eq!(altered(&[(15, 0)]), ["fault load 10 0"]);
    let mut nothing_sent = worked();
    nothing_sent.truncate(27);
    nothing_sent[7] = 0;
    nothing_sent[26] = 0;
    assert_eq!(walk::lines(&nothing_sent), ["fault plan 4 0"]);
}

const LIMITS: Limits = Limits {
    capacity: 8,
    failures: 1,
    steps: 4096,
};

fn decoder() -> Decoder {
    Decoder::new(store::by_code(0).unwrap(), by_code(0).unwrap())
}

#[test]
fn load_refusals() {
    let fit = plan([5, 4, 32, 0, 0], 0).unwrap();
    let load = |plan: &Plan, llrs: &[i32], limits| refusal(decoder().load(plan, llrs, limits));
    let mut llrs = vec![LLR_LIMIT; 32];
    assert_eq!(load(&fit, &llrs[..31], LIMITS), ("load", 10, 0));
    for (capacity, failures, steps) in [
        (1, 1, 1),
        (129, 1, 1),
        (2, 0, 1),
        (2, 65, 1),
        (2, 1, 0),
        (2, 1, (1 << 24) + 1),
    ] {
        let limits = Limits {
            capacity,
            failures,
            steps,
        };
        assert_eq!(load(&fit, &llrs, limits), ("load", 10, 0));
    }
    assert_eq!(
        load(&plan([5, 4, 32, 0, 0], 6).unwrap(), &llrs, LIMITS),
        ("load", 10, 0)
    );
    llrs[5] += 1;
    llrs[9] = -llrs[5];
    assert_eq!(load(&fit, &llrs, LIMITS), ("load", 10, 5));
    assert_eq!(
        load(
            &fit,
            &llrs,
            Limits {
                capacity: 1,
                ..LIMITS
            }
        ),
        ("load", 10, 0)
    );
}

#[test]
fn phases_and_scratch() {
    let fit = plan([5, 4, 32, 0, 0], 0).unwrap();
    let mut d = decoder();
    let mut scratch = vec![9; 70];
    assert_eq!(refusal(d.advance(0, &mut scratch)), ("advance", 11, 0));
    assert_eq!(refusal(d.strike()), ("strike", 11, 0));
    assert_eq!(refusal(d.word(&mut [])), ("word", 11, 0));
    assert_eq!(refusal(d.report()), ("report", 11, 0));
    let loaded = d.load(&fit, &[10; 32], LIMITS).unwrap();
    assert_eq!(
        (loaded.metric, loaded.floor, loaded.bound, loaded.steps),
        (None, None, Some(0), 0)
    );
    assert_eq!(refusal(d.advance(0, &mut scratch)), ("advance", 12, 0));
    assert_eq!(refusal(d.advance(65537, &mut scratch)), ("advance", 12, 0));
    assert_eq!(
        refusal(d.advance(1, &mut scratch[..63])),
        ("advance", 12, 0)
    );
    assert_eq!(scratch, [9; 70]);
    let (met, report) = d.advance(30, &mut scratch).unwrap();
    assert_eq!((met, report.steps), (Met::Paused, 30));
    assert_eq!(
        (&scratch[..64], &scratch[64..]),
        (&[0; 64][..], &[9; 6][..])
    );
    let (met, report) = d.advance(3, &mut scratch).unwrap();
    assert_eq!(
        (met, report.metric, report.steps),
        (Met::Shown, Some(0), 33)
    );
    assert_eq!(refusal(d.advance(1, &mut scratch)), ("advance", 11, 0));
    assert_eq!(refusal(d.word(&mut [0; 5])), ("word", 13, 0));
    assert!(d.strike().is_ok() && d.strike().is_err());
}

/// Every word without a wrong sign comes first at cost 0 after N + 1 steps.
#[test]
fn clean_words_come_first() {
    let mut random = Random(17);
    for check in [0, 6, 11, 4, 24] {
        for sent in [64, 80, 100, 128, 150] {
            let plan = plan([7, 8, sent, 0, 3], check).unwrap();
            let payload = random.bits(8);
            let bits = crate::material::sent_bits(&plan, check, &payload).unwrap();
            let values: Vec<i32> = bits
                .iter()
                .map(|&b| random.between(1, 9) as i32 * if b == 0 { 1 } else { -1 })
                .collect();
            let mut llrs = vec![0; 128];
            recover(&plan, &values, &mut llrs).unwrap();
            let store = store::by_code((sent % 2) as u8).unwrap();
            let mut d = Decoder::new(store, by_code(check).unwrap());
            d.load(
                &plan,
                &llrs,
                Limits {
                    capacity: 2,
                    ..LIMITS
                },
            )
            .unwrap();
            let (met, report) = d.advance(129, &mut [0; 256]).unwrap();
            assert_eq!(
                (met, report.metric, report.steps),
                (Met::Shown, Some(0), 129)
            );
            let mut out = vec![0; 8];
            d.word(&mut out).unwrap();
            assert_eq!(out, payload);
        }
    }
}

#[test]
fn random_files_end_in_a_line() {
    let mut random = Random(23);
    for _ in 0..100 {
        assert!(!walk::lines(&block_file(&mut random)).is_empty());
    }
}
