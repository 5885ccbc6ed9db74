//! Edges that came up in a run, each by its name.

/// An edge, and whether a case came to it.
pub type Edge = (&'static str, bool);

/// Each edge with how often it came up.
pub type Edges = Vec<(&'static str, u64)>;

/// Adds one case, which names all edges in the same order as every other.
pub fn count(sums: &mut Edges, case: Vec<Edge>) {
    sums.resize(case.len(), ("", 0));
    for (sum, (name, came)) in sums.iter_mut().zip(case) {
        *sum = (name, sum.1 + came as u64);
    }
}

/// Names with their counts.
pub fn words<'a>(list: impl IntoIterator<Item = (&'a &'static str, &'a u64)>) -> String {
    let words: Vec<String> = list.into_iter().map(|(name, count)| format!("{name} {count}")).collect();
    words.join(", ")
}
