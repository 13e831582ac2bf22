//! Tables of every length, and what their comparisons show.

mod common;

use common::{answer, shown, vectors, Vector, LIMIT};
use seipolku::{model, Comparison, Fault, Mode, Model, Table, TableError, Verdict, CODES, MAX_TABLE};

const P2: [&[u8]; 2] = [b"000102000201\n", b"000103000001010202\n"];
const P7: [&[u8]; 2] = [b"000102000201\n010102000301\n02020001\n03030201\n", b"000102000001\n"];

fn compare<'t>(table: &'t mut Table, texts: [&[u8]; 2], limit: u64) -> Comparison<'t> {
    table.compare(texts[0], texts[1], limit).unwrap()
}

/// The pairs of codes that the largest bisimulation holds, of models with so many codes.
fn pairs(verdict: Verdict<'_>, left: u64, right: u64) -> Vec<(u64, u64)> {
    (0..left)
        .flat_map(|x| (0..right).map(move |y| (x, y)))
        .filter(|(x, y)| verdict.related(*x, *y).unwrap().unwrap())
        .collect()
}

#[test]
fn lengths() {
    for entries in [0, 1, MAX_TABLE + 1, usize::MAX / 4, usize::MAX / 4 + 2, usize::MAX - 1, usize::MAX] {
        assert_eq!(Table::new(entries).unwrap_err(), TableError::Length, "{entries}");
        assert_eq!(Table::with_work(entries, 0).unwrap_err(), TableError::Length, "{entries}");
    }
    for entries in [14, 15, MAX_TABLE] {
        assert_eq!(answer([b"000101\n"; 2], LIMIT, entries), "strong equal 1 | weak equal 1 | 0 6 12");
    }
    for (entries, numbers) in [(2, "0 0 0"), (3, "0 1 1"), (13, "0 6 11")] {
        let expected = format!("refused 8 2 0 | {numbers}");
        assert_eq!(answer([b"000101\n"; 2], LIMIT, entries), expected);
    }
    for work in [usize::MAX, usize::MAX / 4, isize::MAX as usize / 4] {
        assert_eq!(Table::with_work(2, work).unwrap_err(), TableError::Memory, "{work}");
    }
}

#[test]
fn work_memory_changes_no_answer() {
    for work in [0, 1, 5, 1000, 9001] {
        let mut table = Table::with_work(4096, work).unwrap();
        let p9: [&[u8]; 2] = [b"000102000201\n0106000001\n", b"000102000201\n"];
        assert_eq!(shown(&compare(&mut table, p9, LIMIT)), "strong equal 2 | weak equal 2 | 74 311 649");
        assert_eq!(shown(&compare(&mut table, P7, 1)), "strong refused 9 2 0 | weak equal 1 | 101 351 495");
    }
}

/// Both bisimulations stand in one table, each at its own root.
#[test]
fn the_largest_bisimulations() {
    let mut table = Table::with_work(4096, 7).unwrap();
    let compared = compare(&mut table, P2, LIMIT);
    assert_eq!(pairs(compared.weak, 2, 4), [(0, 0), (0, 1), (1, 2)]);
    let compared = compare(&mut table, P7, LIMIT);
    assert_eq!(pairs(compared.strong, 4, 2), [(0, 0), (1, 1), (2, 1), (3, 1)]);
    assert_eq!(pairs(compared.weak, 4, 2).len(), 8);
    assert_eq!(pairs(compared.verdict(Mode::Strong), 4, 2).len(), 4);
    assert_eq!(pairs(compared.verdict(Mode::Weak), 4, 2).len(), 8);
}

#[test]
fn no_bisimulation_after_different() {
    let mut table = Table::new(4096).unwrap();
    let compared = compare(&mut table, P2, LIMIT);
    assert!(compared.strong.different() && !compared.strong.equal());
    assert_eq!(compared.strong.rounds(), Some(1));
    assert!(compared.strong.largest().is_none());
    assert_eq!(compared.strong.related(0, 0), Ok(None));
    assert_eq!(compared.weak.related(0, 0), Ok(Some(true)));
}

/// The steps of both models of P2, by look-ups of all codes and by the walk.
fn check_steps(compared: &Comparison<'_>) {
    let mut found = (Vec::new(), Vec::new());
    for action in 0..64 {
        for (now, next) in (0..4).flat_map(|now| (0..4).map(move |next| (now, next))) {
            if now < 2 && next < 2 && compared.left_steps(action, now, next).unwrap() {
                found.0.push((now, action, next));
            }
            if compared.right_steps(action, now, next).unwrap() {
                found.1.push((now, action, next));
            }
        }
    }
    assert_eq!(found, (vec![(0, 2, 1)], vec![(0, 0, 1), (1, 2, 2)]));
    let [left, right] = P2.map(|text| model(text).unwrap());
    let from = |now| {
        let left = compared.left_steps_from(now, &left).unwrap().collect::<Vec<_>>();
        let right = compared.right_steps_from(now, &right).unwrap().collect::<Vec<_>>();
        (left, right)
    };
    assert_eq!(from(0), (vec![(2, 1)], vec![(0, 1)]));
    assert_eq!(from(1), (vec![], vec![(2, 2)]));
}

/// Also where one verdict, or neither, fell by the limit; and on a table that the list just fits.
#[test]
fn steps_of_both_models() {
    for (limit, nodes) in [(LIMIT, 956), (u64::MAX, 956), (2, 859), (1, 670), (0, 385)] {
        for entries in [4096, nodes + 2] {
            let mut table = Table::new(entries).unwrap();
            let compared = compare(&mut table, P2, limit);
            assert_eq!(compared.nodes.whole, nodes as u64);
            check_steps(&compared);
        }
    }
}

/// 9 stands for one verdict alone: the other one shows its bisimulation.
#[test]
fn one_verdict_by_the_limit() {
    let mut table = Table::new(4096).unwrap();
    let compared = compare(&mut table, P7, 1);
    assert!(matches!(compared.strong, Verdict::Undecided));
    assert!(!compared.strong.equal() && !compared.strong.different());
    assert_eq!((compared.strong.rounds(), compared.weak.rounds()), (None, Some(1)));
    assert_eq!(compared.strong.related(0, 0), Ok(None));
    assert_eq!(pairs(compared.weak, 4, 2).len(), 8);
    let compared = compare(&mut table, P2, 1);
    assert_eq!((compared.strong.rounds(), compared.weak.rounds()), (Some(1), None));
    assert_eq!(compared.weak.related(0, 0), Ok(None));
    assert!(matches!(compared.verdict(Mode::Strong), Verdict::Different { rounds: 1 }));
    assert!(matches!(compared.verdict(Mode::Weak), Verdict::Undecided));
}

/// The steps of both models as now code, action and next code, and the pairs of each bisimulation.
type Shown = ([Vec<(u64, u64, u64)>; 2], [Option<Vec<(u64, u64)>>; 2]);

fn all_shown(compared: &Comparison<'_>, [left, right]: &[Model; 2]) -> Shown {
    let mut steps = [Vec::new(), Vec::new()];
    for now in 0..1 << left.bits {
        steps[0]
            .extend(compared.left_steps_from(now, left).unwrap().map(|(action, next)| (now, action, next)));
    }
    for now in 0..1 << right.bits {
        steps[1]
            .extend(compared.right_steps_from(now, right).unwrap().map(|(action, next)| (now, action, next)));
    }
    steps.iter_mut().for_each(|all| all.sort_unstable());
    let held =
        |verdict: Verdict<'_>| verdict.equal().then(|| pairs(verdict, 1 << left.bits, 1 << right.bits));
    (steps, [compared.strong, compared.weak].map(held))
}

/// On the stored pairs: the steps are the same at every limit, and so is a bisimulation as soon as its verdict falls.
#[test]
fn what_is_shown_at_every_limit() {
    let (mut undecided, mut decided) = (0, 0);
    let mut table = Table::new(1 << 16).unwrap();
    for Vector { texts: [left, right], .. } in vectors("tests/vectors.tsv") {
        let (Ok(one), Ok(other)) = (model(&left), model(&right)) else { continue };
        let models = [one, other];
        if models.iter().any(|found| found.bits > 5) {
            continue;
        }
        let all = all_shown(&table.compare(&left, &right, LIMIT).unwrap(), &models);
        for limit in [0, 1, 2, 3] {
            let compared = table.compare(&left, &right, limit).unwrap();
            let (steps, held) = all_shown(&compared, &models);
            assert_eq!(steps, all.0);
            for (mode, (found, whole)) in [Mode::Strong, Mode::Weak].into_iter().zip(held.iter().zip(&all.1))
            {
                match compared.verdict(mode) {
                    Verdict::Undecided => undecided += 1,
                    _ => {
                        assert_eq!(found, whole);
                        decided += 1;
                    }
                }
            }
        }
    }
    assert!(undecided > 100 && decided > 100, "{undecided} {decided}");
}

#[test]
fn numbers_out_of_range() {
    let mut table = Table::new(4096).unwrap();
    for limit in [LIMIT, 0] {
        let compared = compare(&mut table, P2, limit);
        let number = |refused: Result<bool, seipolku::Refusal>| refused.unwrap_err().fault;
        assert_eq!(number(compared.left_steps(64, 0, 0)), Fault::LookUp);
        assert_eq!(number(compared.right_steps(0, CODES, 0)), Fault::LookUp);
        assert_eq!(number(compared.left.look_up(0, [0, u64::MAX, 0, 0])), Fault::LookUp);
    }
    let compared = compare(&mut table, P2, LIMIT);
    assert_eq!(compared.weak.related(u64::MAX, 0).unwrap_err().fault, Fault::LookUp);
}

/// A table is used again after its comparison; what the second one shows is its own.
#[test]
fn a_table_is_used_again() {
    let mut table = Table::new(4096).unwrap();
    assert!(compare(&mut table, P2, LIMIT).weak.related(1, 2).unwrap().unwrap());
    assert!(table.compare(b"", b"", LIMIT).is_err());
    let again = compare(&mut table, [P2[1], P2[0]], LIMIT);
    assert!(again.weak.related(2, 1).unwrap().unwrap());
    assert!(again.left_steps(0, 0, 1).unwrap());
}
