//! In how many of all two faults stand together, and in how many one stands alone: a table that the
//! histograms of new times, of chains, of mends and of texts print.

pub fn pairs<const N: usize>(names: [&str; N], all: &[[bool; N]]) {
    println!("| fault | alone | with {} |", names[1..].join(" | with "));
    println!("|---|---|{}", "---|".repeat(N - 1));
    for (first, name) in names.iter().enumerate() {
        let alone = all.iter().filter(|faults| faults[first] && faults.iter().filter(|&&is| is).count() == 1).count();
        let with = |second: usize| match second > first {
            true => all.iter().filter(|faults| faults[first] && faults[second]).count().to_string(),
            false => String::new(),
        };
        println!("| {name} | {alone} | {} |", (1..N).map(with).collect::<Vec<_>>().join(" | "));
    }
}
