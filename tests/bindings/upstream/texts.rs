//! Compares the reader of formulas' texts with that of the library, which is proved, over random texts.
use varisat_checker::Checker;

const WORDS: [&str; 24] = [
    "1",
    "-2",
    "0",
    "3 0",
    "-1 2 0\n",
    " ",
    " ",
    "\n",
    "\n",
    "\t",
    "\r\n",
    "p cnf 3 2\n",
    "p cnf 3\n",
    "p",
    "cnf",
    "c x 0\n",
    "%",
    "x",
    "-0",
    "--1",
    "00",
    "007",
    "268435457",
    "999999999999999999999",
];

/// Random numbers: each comes from the one before.
fn next(state: &mut u64) -> usize {
    *state = state.wrapping_mul(6364136223846793005).wrapping_add(1442695040888963407);
    (*state >> 33) as usize
}

fn main() {
    let (mut state, mut rejected) = (7, 0);
    for _ in 0..20_000 {
        let text: String = (0..next(&mut state) % 10).map(|_| WORDS[next(&mut state) % WORDS.len()]).collect();
        let ours = Checker::new().add_dimacs_cnf(text.as_bytes());
        let ours = ours.err().map(|fault| fault.to_string());
        let library = cefindrato::check(text.as_bytes(), b"").err().map(|fault| fault.to_string());
        assert_eq!(ours.as_deref(), library.as_deref().map(|fault| fault.trim_start_matches("formula: ")), "{text:?}");
        rejected += usize::from(ours.is_some());
    }
    println!("20000 texts, {rejected} rejected");
}
