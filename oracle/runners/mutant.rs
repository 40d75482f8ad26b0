//! One mutant beside the unmodified original, until they differ. Compiled anew for each mutant.

#[path = "../original/original.rs"]
mod original;

use calls::compare::first_difference;
use calls::generator::Profile;
use std::env;

/// Arguments: calls and seed. Prints `same`, or where the first difference is.
fn main() {
    let mut numbers = env::args().skip(1).map(|argument| argument.parse().expect("a number"));
    let (calls, seed) = (numbers.next().expect("calls"), numbers.next().expect("a seed"));
    let mut unmodified = ordered::Original::default();
    let mut mutant = original::Original::default();
    match first_difference(&mut unmodified, &mut mutant, seed, Profile::default(), calls) {
        Ok(_) => println!("same"),
        Err(difference) => {
            let keys: Vec<&str> = difference.tokens.iter().filter_map(|(token, _)| token.split('=').next()).collect();
            println!("call {}: {}", difference.call_number, keys.join(" "));
        }
    }
}
