//! The set-up of a plant, and a whole list of its calls with the answers.

use super::Plant;
use crate::random::Random;
use crate::text;

/// The four lines, the lives of both kinds of key, and the modem's address.
pub fn set_up(r: &mut Random) -> (String, u64, u64, u64) {
    let longest = r.one_in(16);
    let life = if r.one_in(4) { 1_800 + 2 * r.below(3_000) } else { 1_800 };
    let life = if longest { 604_800 } else { life };
    let (grace, aklife) = (300 + r.below(life / 2 - 300), 86_400 + r.below(5_000));
    let aklife = if longest { 6_048_000 } else { aklife };
    let akgrace = 300 + r.below(aklife / 2 - 299);
    let mut wait = || {
        let most = r.pick(&[20, 600]);
        (1 + r.below(most)).to_string()
    };
    let waits: Vec<String> = (0..5).map(|_| wait()).collect();
    let address = 1_000 + r.below(1 << 40);
    let text = format!(
        "life,grace,aklife,akgrace,authorize,reauthorize,operational,rekey,reject\n{life},{grace},{aklife},{akgrace},{}\naddress,said\n{address},{}\n",
        waits.join(","),
        r.below(16_384)
    );
    (text, life, aklife, address)
}

/// Is the modem's counter brought near 255 in this list?
pub fn is_near_255(seed: u64) -> bool {
    matches!(seed % 8, 2 | 4 | 6) || seed.is_multiple_of(20)
}

/// Are keys brought to the modem in this list, so that frames are sealed and opened?
pub fn is_calm(seed: u64) -> bool {
    seed % 3 == 1
}

/// How many calls a list has: one list in twenty has twelve times as many, so that key numbers come round; one in which the modem's counter is
/// brought near 255 has as many more as that takes.
pub fn calls_of(seed: u64, calls: u64) -> u64 {
    let more = if is_near_255(seed) { 100 } else { 0 };
    more + if seed.is_multiple_of(20) { 12 * calls } else { calls }
}

/// A whole list with its answers. One in eight has a set-up that is wrong, and then the answers are what is printed instead; some have no
/// line end at the end. `seen` gets the plant before the first call, and after each with the call and its answer, where the set-up is not made wrong.
pub fn list(seed: u64, calls: u64, mut seen: impl FnMut(&Plant, Option<(&str, &str)>)) -> (String, String) {
    let (mut plant, mut input) = Plant::new(seed);
    let mut output = String::new();
    let mut r = Random(!seed);
    let wrong = seed % 8 == 5;
    if wrong {
        input = text::wrong_start(&mut r, seed / 8, &input);
    } else {
        seen(&plant, None);
    }
    for _ in 0..calls {
        let (call, answer) = plant.next();
        if !wrong {
            seen(&plant, Some((&call, &answer)));
        }
        input += &(call + "\n");
        output += &(answer + "\n");
    }
    output += &plant.frames();
    if r.one_in(4) {
        input.pop();
    }
    if wrong {
        output = curlewreel_outside::replay::replay(input.as_bytes());
    }
    (input, output)
}
