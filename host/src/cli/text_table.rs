//! The tables of senders as text.
use super::losses::Losses;
use super::refusals::Refusals;
use super::rows::{rates, shown, Layout, Row, Told, Whose};
use store_reader::Refusal;

/// A column of a text table: its head, whether it stands on the right, and its cells.
struct Column {
    head: String,
    right: bool,
    cells: Vec<String>,
}

fn column(head: &str, right: bool, cells: impl Iterator<Item = String>) -> Column {
    Column { head: head.to_string(), right, cells: cells.collect() }
}

/// Columns side by side, as wide as they need to be.
fn side_by_side(columns: &[Column]) -> String {
    let lines = columns.first().map_or(0, |column| column.cells.len());
    let widest = |column: &Column| column.cells.iter().chain([&column.head]).map(String::len).max();
    let widths: Vec<usize> = columns.iter().map(|column| widest(column).unwrap_or(0)).collect();
    let mut text = String::new();
    for at in 0..=lines {
        let cells = columns.iter().zip(&widths).map(|(column, &width)| {
            let cell = if at == 0 { &column.head } else { &column.cells[at - 1] };
            if column.right {
                format!("{cell:>width$}")
            } else {
                format!("{cell:<width$}")
            }
        });
        text += cells.collect::<Vec<_>>().join("  ").trim_end();
        text.push('\n');
    }
    text
}

/// Both tables in text: the frames that senders made, and what the counters of those that sealed them tell, at the end of all together.
pub fn table(rows: &[Row], layout: Layout) -> String {
    let mut told: Vec<Told> = rows.iter().flat_map(|row| row.told(layout)).collect();
    let mut total = Row::new(None, Whose::Total);
    rows.iter().for_each(|row| total.add(row));
    if told.len() > 1 {
        let all = total.all_losses().map(|losses| (&total, None, losses));
        told.extend(all);
    }
    let mut text = side_by_side(&frames(rows, layout));
    if !told.is_empty() {
        text += &side_by_side(&counters(&told, layout));
    }
    text
}

/// The columns of the frames that senders made. Clear frames have one where there are any.
fn frames(rows: &[Row], layout: Layout) -> Vec<Column> {
    let number = |head: &str, of: fn(&Row) -> u64| column(head, true, rows.iter().map(|row| of(row).to_string()));
    let mut columns = Vec::new();
    if let Some(by) = layout.by {
        columns.push(column(by.name(), false, rows.iter().map(|row| shown(row.period(layout)))));
    }
    if layout.by_sender {
        columns.push(column("sender", false, rows.iter().map(Row::sender)));
        columns.push(column("short", false, rows.iter().map(Row::shorts)));
    }
    columns.push(number(layout.names.done, |row| row.accepted));
    if rows.iter().any(|row| row.clear > 0) {
        columns.push(number("clear", |row| row.clear));
    }
    columns.push(number("refused", |row| row.refused.all()));
    columns.push(column("", false, rows.iter().map(|row| numbers(&row.refused))));
    columns.push(column("first", false, rows.iter().map(|row| shown(row.first))));
    columns.push(column("last", false, rows.iter().map(|row| shown(row.last))));
    columns.push(column("sequence numbers never heard", true, rows.iter().map(|row| shown(row.sequences()))));
    columns
}

/// The columns of what counters tell.
fn counters(told: &[Told], layout: Layout) -> Vec<Column> {
    let number =
        |head: &str, of: fn(&Losses) -> u64| column(head, true, told.iter().map(|(_, _, l)| of(l).to_string()));
    let text =
        |head: &str, of: fn(&Losses) -> String| column(head, false, told.iter().map(|(_, _, losses)| of(losses)));
    let mut columns = Vec::new();
    if let Some(by) = layout.by {
        columns.push(column(by.name(), false, told.iter().map(|(row, _, _)| shown(row.period(layout)))));
    }
    if layout.by_sender {
        columns.push(column("counters of", false, told.iter().map(|(row, _, _)| row.sender())));
        columns.push(column("key", true, told.iter().map(|(_, key, _)| shown(*key))));
        columns.push(column("first to highest", false, told.iter().map(|(_, key, losses)| range(*key, losses))));
    }
    columns.push(number("received", |losses| losses.received));
    columns.push(number("in gaps", Losses::gaps));
    columns.push(number("of these refused", |losses| losses.refused));
    columns.push(text("jumps", jumps));
    columns.push(number("starts anew", |losses| losses.starts_anew));
    columns.push(number("not above", |losses| losses.at_or_below));
    columns.push(text("lost", lost));
    columns.push(text("loss rate", percent));
    columns
}

/// The range of counters under a key number.
fn range(key: Option<u8>, losses: &Losses) -> String {
    let range = key.and(losses.range);
    range.map_or(String::new(), |(first, highest)| format!("{first} to {highest}"))
}

/// How many were lost: a number where it is known, else its bounds.
fn lost(losses: &Losses) -> String {
    bounds(losses.at_least().to_string(), losses.at_most().map(|lost| lost.to_string()), "0")
}

/// A number, or its bounds; of the two that are the same the one, and where the lower one is nothing the upper one.
fn bounds(low: String, high: Option<String>, nothing: &str) -> String {
    match high {
        None => format!("at least {low}"),
        Some(high) if high == low => low,
        Some(high) if low == nothing => format!("at most {high}"),
        Some(high) => format!("{low} to {high}"),
    }
}

fn percent(losses: &Losses) -> String {
    let (low, high) = rates(losses);
    let shown = |rate: f64| format!("{:.1}", 100.0 * rate);
    bounds(shown(low), high.map(shown), "0.0") + " %"
}

fn jumps(losses: &Losses) -> String {
    let plural = |n: u64| if n == 1 { "" } else { "s" };
    match (losses.jumps, losses.passed_over) {
        (0, 0) => "0".to_string(),
        (jumps, passed) => {
            format!("{jumps} restart{} or more, {passed} counter{} passed over", plural(jumps), plural(passed))
        }
    }
}

/// A refused frame's numbers, those by 19 with what their frame check sequence says.
fn numbers(refused: &Refusals) -> String {
    let number = |(refusal, n): (Refusal, u64)| match refusal {
        Refusal::WRONG_MIC if !refused.wrong_mic.parts().is_empty() => {
            let parts = refused.wrong_mic.parts().into_iter().map(|(fcs, n, _)| format!("{n} {fcs} FCS"));
            format!("{n} by 19 ({})", parts.collect::<Vec<_>>().join(", "))
        }
        other => format!("{n} by {}", other.number()),
    };
    refused.iter().map(number).collect::<Vec<_>>().join(", ")
}
