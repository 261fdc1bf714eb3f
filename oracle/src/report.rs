//! Tables of counts with a column for each source.

/// Prints a row: what it counts, and a cell for each column.
pub fn row(head: &str, cells: impl IntoIterator<Item = String>) {
    let cells: String = cells
        .into_iter()
        .map(|cell| format!(" {cell:>10}"))
        .collect();
    println!("{head:<12}{cells}");
}

/// The head of a table: the names of the sources, and the column of sums.
pub fn head(title: &str, names: impl IntoIterator<Item = &'static str>) {
    row(title, names.into_iter().chain(["all"]).map(str::to_string));
}

/// Prints a count for each source, and their sum.
pub fn sums<T>(head: &str, sources: &[T], count: impl Fn(&T) -> u64) {
    let counts: Vec<u64> = sources.iter().map(count).collect();
    let sum = counts.iter().sum::<u64>();
    row(head, counts.iter().chain([&sum]).map(u64::to_string));
}

/// Prints a count for each source, and the greatest of them.
pub fn greatest<T>(head: &str, sources: &[T], count: impl Fn(&T) -> u64) {
    let counts: Vec<u64> = sources.iter().map(count).collect();
    let greatest = counts.iter().max().copied().unwrap_or(0);
    row(head, counts.iter().chain([&greatest]).map(u64::to_string));
}
