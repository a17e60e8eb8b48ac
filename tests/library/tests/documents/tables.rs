//! The tables of a document and what its cells name: quoted is what stands in
//! backticks.

/// A row of a table and the number of its line.
#[derive(Clone)]
pub struct Row {
    pub line: usize,
    pub cells: Vec<String>,
}

/// A table: the titles of its columns, and its rows.
pub struct Table {
    pub titles: Vec<String>,
    pub rows: Vec<Row>,
}

/// The cells of a line, if it belongs to a table.
fn cells(line: &str) -> Option<Vec<String>> {
    let inner = line.strip_prefix('|')?.strip_suffix('|')?;
    Some(
        inner
            .split('|')
            .map(|cell| cell.trim().to_string())
            .collect(),
    )
}

/// The tables of a text.
pub fn tables(text: &str) -> Vec<Table> {
    let mut found: Vec<Table> = Vec::new();
    let mut inside = false;
    for (place, line) in text.lines().enumerate() {
        let row = cells(line);
        match row {
            Some(titles) if !inside => found.push(Table {
                titles,
                rows: Vec::new(),
            }),
            Some(cells) if cells[0] != "---" => {
                let line = place + 1;
                let table = found.last_mut().expect("titles stand before rows");
                table.rows.push(Row { line, cells });
            }
            _ => (),
        }
        inside = line.starts_with('|');
    }
    found
}

/// The rows of all tables of a document whose first columns have these titles;
/// there is one at least.
pub fn rows_under(text: &str, titles: &[&str]) -> Vec<Row> {
    let tables = tables(text).into_iter();
    let count = titles.len();
    let rows: Vec<Row> = tables
        .filter(|table| table.titles.len() >= count && table.titles[..count] == *titles)
        .flat_map(|table| table.rows)
        .collect();
    assert!(!rows.is_empty(), "no table with the columns {titles:?}");
    rows
}

/// What is quoted in a cell or line.
pub fn quoted(text: &str) -> Vec<&str> {
    text.split('`').skip(1).step_by(2).collect()
}

/// The numbers of a text, in order.
pub fn numbers(text: &str) -> Vec<usize> {
    let words = text.split(|letter: char| !letter.is_ascii_digit());
    words.filter_map(|word| word.parse().ok()).collect()
}

/// Tries a check on the rows with each quoted word of a column misspelt in turn: it
/// must find every one of them. Returns how many there were.
pub fn misspelt(rows: &[Row], column: usize, check: impl Fn(&[Row]) -> Vec<String>) -> usize {
    let mut count = 0;
    for row in rows {
        let parts: Vec<&str> = row.cells[column].split('`').collect();
        for place in (1..parts.len()).step_by(2) {
            let wrong = format!("{}x", parts[place]);
            let mut changed = row.clone();
            let mut parts = parts.clone();
            parts[place] = &wrong;
            changed.cells[column] = parts.join("`");
            assert!(
                !check(&[changed]).is_empty(),
                "line {}: `{wrong}` is not found",
                row.line
            );
            count += 1;
        }
    }
    count
}
