//! Each call on texts of its own, with verdicts, faults and outputs, and from several threads.
use cefindrato::{check, check_drat, check_model, dimacs, lit, version};
use cefindrato::{DratOptions, DratStep, Format, ModelVerdict, Verdict};

const FOUR: &[u8] = b"1 2 0 1 -2 0 -1 2 0 -1 -2 0";

/// The text of a fault, and whether there was no memory.
fn fault<T: std::fmt::Debug>(answer: Result<T, cefindrato::Fault>) -> (String, bool) {
    let fault = answer.unwrap_err();
    (fault.to_string(), fault.is_out_of_memory())
}

#[test]
fn lrat() {
    assert_eq!(check(FOUR, b"5 1 0 1 2 0\n6 0 5 3 4 0\n"), Ok(Verdict::Verified));
    assert_eq!(check(FOUR, b"5 1 0 1 2 0\n"), Ok(Verdict::NotVerified));
    assert_eq!(check(b"", b""), Ok(Verdict::NotVerified));
    let refused = fault(check(FOUR, b"5 1 0 1 2 0\n6 0 5 3 0\n"));
    assert_eq!(refused, ("proof: line 2: hints end without a conflict".to_owned(), false));
}

#[test]
fn drat() {
    let plain = DratOptions::default();
    let answer = check_drat(FOUR, b"1 0\n0\n", plain).unwrap();
    assert_eq!((answer.verdict, answer.lrat, answer.core), (Verdict::Verified, None, None));
    assert_eq!(check_drat(FOUR, b"a\x02\x00a\x00", plain).unwrap().verdict, Verdict::Verified);
    let three = b"1 2 0 1 -2 0 -1 2 0";
    assert_eq!(check_drat(three, b"1 0\n", plain).unwrap().verdict, Verdict::NotVerified);
    assert_eq!(fault(check_drat(FOUR, b"1 x\n", plain)), ("proof: step 1: malformed".to_owned(), false));
    let frat = DratOptions { format: Format::Frat, ..plain };
    let proof = b"o 1 1 2 0 o 2 1 -2 0 o 3 -1 2 0 o 4 -1 -2 0 a 5 1 0 l 1 2 0 a 6 0 l 5 3 4 0";
    assert_eq!(check_drat(FOUR, proof, frat).unwrap().verdict, Verdict::Verified);
    let drat = DratOptions { format: Format::Drat, ..plain };
    assert_eq!(fault(check_drat(FOUR, proof, drat)).0, "proof: step 1: malformed");
}

#[test]
#[allow(deprecated)]
fn former_names() {
    assert_eq!((Format::default(), Format::Told), (Format::Detected, Format::Detected));
}

/// The clause `3` is not used, and what is put is a proof and a formula again.
#[test]
fn outputs() {
    let five = b"3 0 1 2 0 1 -2 0 -1 2 0 -1 -2 0";
    let wanted = DratOptions { lrat: true, core: true, ..DratOptions::default() };
    let answer = check_drat(five, b"1 0\n0\n", wanted).unwrap();
    assert_eq!(check(five, &answer.lrat.unwrap()), Ok(Verdict::Verified));
    assert_eq!(answer.core.unwrap(), b"p cnf 2 4\n1 2 0\n1 -2 0\n-1 2 0\n-1 -2 0\n");
    let none = check_drat(five, b"1 0\n", DratOptions { lrat: true, ..DratOptions::default() }).unwrap();
    assert_eq!((none.verdict, none.lrat.is_some()), (Verdict::Verified, true));
}

/// Lists as texts: without the deleted clause the last step does not follow.
#[test]
fn lists() {
    let four = dimacs([[lit!(1), lit!(2)], [lit!(1), lit!(-2)], [lit!(-1), lit!(2)], [lit!(-1), lit!(-2)]]);
    assert_eq!(four, b"1 2 0\n1 -2 0\n-1 2 0\n-1 -2 0\n");
    let steps = [DratStep::Delete(vec![lit!(2), lit!(1)]), DratStep::Add(vec![lit!(1)]), DratStep::Add(vec![])];
    assert_eq!(cefindrato::drat(steps.clone()), b"d 2 1 0\n1 0\n0\n");
    let plain = DratOptions::default();
    assert_eq!(check_drat(&four, &cefindrato::drat(steps[1..].to_vec()), plain).unwrap().verdict, Verdict::Verified);
    assert!(fault(check_drat(&four, &cefindrato::drat(steps), plain)).0.starts_with("proof: step 2: "));
}

#[test]
fn models() {
    let answer = b"s SATISFIABLE\nv 1 2 0\n";
    assert_eq!(check_model(b"p cnf 2 1\n1 2 0\n", answer), Ok(ModelVerdict::Verified));
    let unmet = ModelVerdict::NotVerified { clause: 2, line: 3 };
    assert_eq!(check_model(b"p cnf 2 2\n1 2 0\n-1 -2 0\n", answer), Ok(unmet));
    assert_eq!(fault(check_model(b"1 0", b"s UNKNOWN\n")).0, "answer: line 1: the answer is UNKNOWN");
}

#[test]
fn versions_are_alike() {
    let (first, second, third) = version();
    assert_eq!(format!("{first}.{second}.{third}"), env!("CARGO_PKG_VERSION"));
}

/// 1, then that each variable makes the next one, and not the last one: a line for each follows.
fn chain(length: usize) -> (String, String) {
    let (mut cnf, mut proof) = ("1 0\n".to_owned(), String::new());
    for var in 1..length {
        cnf += &format!("-{var} {} 0\n", var + 1);
        let before = if var == 1 { 1 } else { length + var };
        proof += &format!("{} {} 0 {before} {} 0\n", length + 1 + var, var + 1, var + 1);
    }
    cnf += &format!("-{length} 0\n");
    proof += &format!("{} 0 {} {} 0\n", 2 * length + 1, 2 * length, length + 1);
    (cnf, proof)
}

/// Each other thread has a proof that is cut within a line.
#[test]
fn threads_at_once() {
    let (cnf, proof) = chain(2000);
    let cut = &proof[..proof[..proof.len() / 2].rfind('\n').unwrap() + 3];
    let unfinished = format!("proof: line {}: unfinished line", cut.lines().count());
    std::thread::scope(|scope| {
        let of = |n: usize| if n % 2 == 0 { proof.as_bytes() } else { cut.as_bytes() };
        let cnf = cnf.as_bytes();
        let all: Vec<_> = (0..8).map(|n| scope.spawn(move || check(cnf, of(n)))).collect();
        for (n, one) in all.into_iter().enumerate() {
            let answer = one.join().unwrap();
            if n % 2 == 0 {
                assert_eq!(answer, Ok(Verdict::Verified));
            } else {
                assert_eq!(fault(answer), (unfinished.clone(), false));
            }
        }
    });
}
