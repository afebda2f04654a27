// Compares the table with a model coded apart, at each digit width and after every operation: reply, settings and every word of the areas; each "next" of listings
// and each flagged count with a model of it; and what the text program prints with a text program coded apart. What was never reached fails.
//   leafdrum_tests [SEED [TURNS]]                                   everything
//   leafdrum_tests mutants [SEED]                                   the wrong versions of the model alone
//   leafdrum_tests listings [SEED]                                  the listings and counts and their wrong versions alone
//   leafdrum_tests orders|large|spoiled|six|cut|struck SEED WIDTH   one random sequence again, as a difference names it
//   leafdrum_tests listed|next SEED WIDTH                           one random sequence with listings, or memory, again
//   leafdrum_tests program [SEED [TEXTS]]                           the text program alone
//   leafdrum_tests text SEED                                        one random text again, as a difference names it
mod bound;
mod count;
mod count_mutants;
mod counting;
mod coverage;
mod examples;
mod exchanges;
mod listing;
mod listing_mutants;
mod lists;
mod model;
mod mutants;
mod next;
mod pair;
mod program;
mod random;
mod refusals;
mod runs;
mod sequences;
mod six;
mod table;
mod text;
mod text_coverage;
mod text_mutants;
mod texts;
mod viewers;
mod words;
use coverage::Total;
use model::WIDTHS;
use pair::Compared;
use random::Random;

const SEED: u64 = 20_260_901;
const TEXTS: u64 = 2_000;

fn everything(seed: u64, turns: u64) -> Compared<Vec<String>> {
    let mut total = Total::default();
    let r = &mut Random::new(seed);
    examples::level_counts();
    refusals::level_counts();
    for width in WIDTHS {
        examples::all(width, &mut total)?;
        exchanges::all(width, &mut total)?;
        lists::all(width, seed, &mut total)?;
        refusals::all(width, seed, &mut total)?;
        viewers::all(width, seed, &mut total)?;
        listing::all(width, seed, &mut total)?;
        sequences::written(width, &mut total)?;
        sequences::reopened(width, seed, &mut total)?;
    }
    let mut missing = six::aimed(seed, &mut total)?;
    // once at least
    loop {
        for width in WIDTHS {
            for _ in 0..10 {
                sequences::orders(width, r.next(), &mut total)?;
            }
            sequences::large(width, r.next(), &mut total)?;
            for _ in 0..20 {
                sequences::spoiled(width, r.next(), &mut total)?;
            }
        }
        if total.turns >= turns {
            break;
        }
    }
    missing.extend(total.report());
    missing.extend(mutants::missed(seed));
    missing.extend(listing_mutants::missed(seed));
    missing.extend(count_mutants::missed(seed));
    missing.extend(program::all(seed, TEXTS)?);
    Ok(missing)
}

// the listings and counts alone, with their wrong versions
fn listings(seed: u64) -> Compared<Vec<String>> {
    let mut total = Total::default();
    WIDTHS.into_iter().try_for_each(|width| listing::all(width, seed, &mut total))?;
    let mut missing = total.listings.report();
    missing.extend(listing_mutants::missed(seed));
    missing.extend(count_mutants::missed(seed));
    Ok(missing)
}

fn one<T>(run: fn(u32, u64, &mut Total) -> Compared<T>, width: u64, seed: u64) -> Compared<Vec<String>> {
    let width = WIDTHS.into_iter().find(|&w| w as u64 == width).expect("a width");
    run(width, seed, &mut Total::default())?;
    Ok(vec![])
}

fn main() {
    let args: Vec<String> = std::env::args().skip(1).collect();
    let number = |k: usize, otherwise: u64| args.get(k).map_or(otherwise, |a| a.parse().expect("a number"));
    let result = match args.first().map(String::as_str) {
        Some("mutants") => Ok(mutants::missed(number(1, SEED))),
        Some("orders") => one(sequences::orders, number(2, 3), number(1, SEED)),
        Some("large") => one(sequences::large, number(2, 3), number(1, SEED)),
        Some("cut") => one(lists::cut, number(2, 3), number(1, SEED)),
        Some("struck") => one(viewers::struck, number(2, 3), number(1, SEED)),
        Some("six") => one(six::one_width, number(2, 3), number(1, SEED)),
        Some("program") => program::all(number(1, SEED), number(2, TEXTS)),
        Some("text") => program::one(number(1, SEED)),
        Some("listings") => listings(number(1, SEED)),
        Some("listed") => one(listing::listed, number(2, 3), number(1, SEED)),
        Some("next") => one(listing::spoiled, number(2, 3), number(1, SEED)),
        Some("spoiled") => one(sequences::spoiled, number(2, 3), number(1, SEED)),
        _ => {
            println!("seed {}", number(0, SEED));
            everything(number(0, SEED), number(1, 1_000_000))
        }
    };
    match result {
        Err(d) => println!("a difference: {}", d.text),
        Ok(missing) if !missing.is_empty() => println!("failed, since never reached or reached wrongly: {}", missing.join("; ")),
        Ok(_) => {
            println!("no difference");
            return;
        }
    }
    std::process::exit(1)
}
