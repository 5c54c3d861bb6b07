use super::*;
use crate::diagram::Diagram;
use crate::family::Family;
use crate::generate::Palette;
use crate::locks::Locks;
use crate::loops::Loops;
use crate::random::Random;
use crate::scan;

fn random_diagram<F: Palette>(random: &mut Random) -> Diagram<F> {
    let mut diagram = Diagram::default();
    let mut handles = Vec::new();
    for _ in 0..random.between(1, 256) {
        let kind = F::any_kind(random);
        let parameters = F::parameters(kind, random);
        handles.push(diagram.place(Some(kind), &parameters).unwrap());
    }
    for _ in 0..3 * handles.len() {
        let (target, source) = (*random.pick(&handles), *random.pick(&handles));
        let _ = diagram.wire(target, random.below(3), source);
    }
    diagram
}

/// A number anywhere, often at the end of some range.
fn any_state(random: &mut Random) -> i32 {
    let ends = [0, 1, 2, 1000, 100_000, 1_000_000, 2_000_000, 1_000_000_000, i64::from(i32::MAX)];
    let end = *random.pick(&ends) + random.below(3) as i64 - 1;
    let n = if random.chance(50) { end } else { random.below(3_000_000) as i64 };
    let signed = if random.chance(50) { n } else { -n };
    signed.clamp(i32::MIN.into(), i32::MAX.into()) as i32
}

/// Writes over some of the numbers of a record.
fn scribble(record: &mut Record, random: &mut Random) {
    let fields = [
        &mut record.u,
        &mut record.v,
        &mut record.w,
        &mut record.z,
        &mut record.p,
        &mut record.q,
        &mut record.r,
    ];
    let most = if random.chance(90) { 4 } else { 7 };
    for field in fields.into_iter().take(most) {
        if random.chance(30) {
            *field = any_state(random);
        }
    }
}

fn same<F: Palette, R: Rules>(signal: fn(F::Signal) -> R::Signal)
where
    R::Signal: PartialEq + std::fmt::Debug,
{
    let mut random = Random::new(11);
    for _ in 0..60 {
        let diagram = random_diagram::<F>(&mut random);
        let wiring = diagram.wiring();
        let plan = Plan::of(wiring);
        let mut records = vec![IDLE; SLOTS];
        for &slot in wiring.order() {
            records[slot] = F::to_record(diagram.blocks()[slot].as_ref().unwrap());
        }
        let mut signals = vec![R::REST; SLOTS];
        for _ in 0..30 {
            let at = *random.pick(wiring.order());
            scribble(&mut records[at], &mut random);
            let blocks = wiring.order().iter().fold(vec![None; SLOTS], |mut blocks, &slot| {
                blocks[slot] = Some(F::from_record(&records[slot]));
                blocks
            });
            let expected = scan::solve::<F>(wiring, &blocks);
            plan.solve::<R>(&records, &mut signals).unwrap();
            for &slot in wiring.order() {
                assert_eq!(Some(signals[slot]), expected[slot].map(signal));
            }
            let next = scan::settle::<F>(wiring, &blocks, &expected);
            plan.settle::<R>(&mut records, &signals).unwrap();
            for &slot in wiring.order() {
                assert_eq!(records[slot], F::to_record(next[slot].as_ref().unwrap()));
            }
        }
    }
}

#[test]
fn loops_are_the_same() {
    same::<Loops, LoopRules>(|signal| i32::try_from(signal).unwrap());
}

#[test]
fn interlocks_are_the_same() {
    same::<Locks, LockRules>(|signal| signal);
}

fn counts_the_same<F: Palette, R: Rules>() {
    let mut random = Random::new(12);
    for _ in 0..200_000 {
        let kind = F::any_kind(&mut random);
        let parameters = F::parameters(kind, &mut random);
        let mut record = F::to_record(&F::fresh(kind, &parameters));
        scribble(&mut record, &mut random);
        if random.chance(10) {
            record.code = random.below(256) as u8;
        }
        assert_eq!(F::to_record(&F::from_record(&record)), *counted::<R>(&record));
    }
}

#[test]
fn records_count_the_same() {
    counts_the_same::<Loops, LoopRules>();
    counts_the_same::<Locks, LockRules>();
}

#[test]
fn roots_are_the_same() {
    let root = Loops::from_record(&Record { code: 5, ..IDLE });
    let record = Record { code: 5, ..IDLE };
    for a in -1000..=1_000_000 {
        let expected = Loops::output(&root, &[a, 0, 0]);
        assert_eq!(i128::from(LoopRules::output(&record, [a as i32, 0, 0])), expected);
    }
}

#[test]
fn signals_out_of_range_are_at_rest() {
    let record = Record { code: 10, ..IDLE };
    let sum = Loops::from_record(&record);
    for (a, given) in [(1_000_000, 1_000_000), (1_000_001, 0), (-1_000_001, 0)] {
        assert_eq!(LoopRules::output(&record, [a, 0, 0]), given);
        assert_eq!(Loops::output(&sum, &[a.into(), 0, 0]), given.into());
    }
}

#[test]
fn short_rows_are_refused() {
    let plan = Plan::of(&Wiring::default());
    let (mut records, mut signals) = (vec![IDLE; 256], vec![0; 256]);
    assert_eq!(plan.solve::<LoopRules>(&records[..255], &mut signals), Err(Refusal::RowTooShort));
    assert_eq!(plan.solve::<LoopRules>(&records, &mut signals[..255]), Err(Refusal::RowTooShort));
    let settled = plan.settle::<LoopRules>(&mut records[..255], &signals);
    assert_eq!(settled, Err(Refusal::RowTooShort));
    assert_eq!(plan.settle::<LoopRules>(&mut records, &signals[..255]), Err(Refusal::RowTooShort));
    assert_eq!(plan.solve::<LoopRules>(&records, &mut signals), Ok(()));
}
