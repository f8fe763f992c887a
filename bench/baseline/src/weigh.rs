// Counts to a depth.
use crate::chart::{Chart, PhraseId};

const MOST: u32 = 1_000_000;

struct Term {
    to: usize,
    arguments: Vec<usize>,
}

// How many start trees of at most this height have the tokens as their string.
pub fn count(chart: &Chart, depth: u32) -> u32 {
    let grammar = chart.grammar;
    let categories = grammar.dimensions.len();
    let mut index = vec![usize::MAX; chart.phrases.len()];
    let mut width = categories;
    for (id, _) in chart.made_phrases() {
        index[id as usize] = width;
        width += 1;
    }
    let index_of = |id: PhraseId| {
        let phrase = chart.phrases.value(id);
        if phrase.is_bare() { phrase.category as usize } else { index[id as usize] }
    };
    let mut terms = Vec::new();
    for (category, live) in grammar.live.iter().enumerate() {
        for place in live {
            let arguments = grammar.place(*place).arguments.iter().map(|a| *a as usize).collect();
            terms.push(Term { to: category, arguments });
        }
    }
    for (id, rules) in chart.made_phrases() {
        for rule in rules {
            let arguments = Chart::arguments(chart.rules.value(*rule)).map(index_of).collect();
            terms.push(Term { to: index[id as usize], arguments });
        }
    }
    let mut values = vec![0u32; width];
    for _ in 0..depth {
        let mut next = vec![0u32; width];
        for term in &terms {
            let mut product = 1u32;
            for argument in &term.arguments {
                product = (u64::from(product) * u64::from(values[*argument])).min(u64::from(MOST)) as u32;
            }
            next[term.to] = (next[term.to] + product).min(MOST);
        }
        values = next;
    }
    chart.whole().map_or(0, |id| values[index_of(id)])
}
