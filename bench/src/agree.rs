//! The kernel and the straightforward version are held to each other: the same answer, and the same output buffer after it.

use crate::buffer::Buffer;
use crate::cases::{Case, Random};
use crate::kernel::{self, Answer, Call, Operand, Shape, MAX_COUNT, MAX_RANK};
use crate::large;
use crate::plain;

/// The common answer to a call with room for so many elements.
fn common(call: &Call, room: usize) -> Answer {
    let (mut a, mut b) = (vec![-9; room], vec![-9; room]);
    let (x, y) = (kernel::answer(call, &mut a), plain::answer(call, &mut b));
    let Call { number, g, k, l, r } = call;
    assert!(
        x == y && a == b,
        "{number} {g} {k} on {:?} {:?} and {:?} {:?} into {room}: {x:?} and {y:?}",
        l.shape,
        &l.elements[..],
        r.shape,
        &r.elements[..]
    );
    x
}

/// A case is no refusal. The result's count.
pub fn on_case(case: &Case) -> usize {
    let answer = common(&case.call, MAX_COUNT);
    assert_eq!(answer.number, 0, "{} {} {} is refused", case.primitive, case.shape, case.what);
    answer.shape.lens[..answer.shape.rank].iter().product()
}

/// Less than the longest run: no run is held on the stack on its way, whatever the code says. A thread that needs more is killed.
pub const SMALL_STACK: usize = 48 * 1024;

/// Every call on a small stack but those of index of and member, which keep their chains there.
pub fn on_a_small_stack(cases: &[Case]) {
    let mut out = vec![0; MAX_COUNT];
    let mut calls = || {
        for case in cases.iter().filter(|case| case.call.number != 29 && case.call.number != 30) {
            assert_eq!(kernel::answer(&case.call, &mut out).number, 0);
        }
    };
    std::thread::scope(|scope| {
        let thread = std::thread::Builder::new().stack_size(SMALL_STACK);
        thread
            .spawn_scoped(scope, &mut calls)
            .expect("a thread can be started")
            .join()
            .expect("every call is answered");
    });
}

/// Small random calls, of which most are refused, for each reason that there is.
pub fn on_random_calls(calls: usize) {
    let mut random = Random::new();
    let mut met = [0; 11];
    for _ in 0..calls {
        let call = Call {
            number: 10 + random.below(23),
            g: [0, 1, 0, 1, 0, 1, 0, 1, 2, -1][random.below(10) as usize],
            k: number(&mut random),
            l: random_operand(&mut random, 1),
            r: random_operand(&mut random, 2),
        };
        let room = random.below(12) as usize * 20;
        met[common(&call, room).number] += 1;
    }
    assert!(met.iter().all(|&times| times > 0), "an answer that no random call met: {met:?}");
}

/// Large random calls, each into a buffer with room for any result and into one that is filled by its own. Every primitive is accepted by some.
pub fn on_large_calls(calls: usize) {
    let mut random = Random::new();
    let mut accepted = [0; 32];
    for _ in 0..calls {
        let call = large::call(&mut random);
        let answer = common(&call, MAX_COUNT);
        if answer.number == 0 {
            accepted[call.number as usize] += 1;
            let count: usize = answer.shape.lens[..answer.shape.rank].iter().product();
            common(&call, count);
            assert!(count == 0 || common(&call, count - 1).number == 10);
        }
    }
    assert!(
        (11..=15).chain(21..=31).all(|number| accepted[number] > calls / 100),
        "a primitive that hardly any large call met: {accepted:?}"
    );
}

/// Of rank 0 to 3 and lengths 0 to 3 with as many elements, and now and then of bad form.
fn random_operand(random: &mut Random, quarter: usize) -> Operand {
    let rank = random.below(4) as usize;
    let mut shape = Shape::new(&[3; MAX_RANK]);
    shape.rank = rank;
    shape.lens[..rank].fill_with(|| random.below(4) as usize);
    let count = shape.lens[..rank].iter().product();
    let elements: Vec<i32> = (0..count).map(|_| number(random)).collect();
    match random.below(60) {
        0 => shape.rank = 9,
        1 => shape.lens[0] = MAX_COUNT + 1,
        2 => shape.lens = [usize::MAX; MAX_RANK],
        3 => shape.rank = 4,
        4 => {
            shape.rank = 2;
            shape.lens = [MAX_COUNT; MAX_RANK];
        }
        _ => {}
    }
    Operand { shape, elements: Buffer::new(&elements, quarter) }
}

/// Small, and now and then above the limit or extreme.
fn number(random: &mut Random) -> i32 {
    match random.below(50) {
        0 => MAX_COUNT as i32 + 1,
        1 => i32::MIN,
        2 => i32::MAX,
        _ => random.below(7) - 2,
    }
}
