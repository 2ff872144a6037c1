//! The table of senders as comma-separated values.
use super::csv;
use super::losses::Losses;
use super::period::By;
use super::replay::was_opened;
use super::rows::{rates, shown, Layout, Row, Whose};
use super::summary::Names;
use store_reader::Refusal;

/// The refusals that have a column: document 01's, since the command opens each frame alone and at a level, counters and presence bits
/// are refused to writers only, and a journal is no frame; and those of opened frames where replays are refused. Those that opening
/// into room enough never answers stay 0.
fn refusals(names: Names) -> impl Iterator<Item = Refusal> {
    Refusal::all().filter(move |refusal| match *refusal {
        Refusal::BURST | Refusal::LAST_COUNTER | Refusal::PRESENCE_BITS | Refusal::LEVEL => false,
        Refusal::JOURNAL_KIND | Refusal::COUNTERS_USED_UP | Refusal::NO_CEILING => false,
        other => names.replay || !was_opened(other),
    })
}

/// The columns of `--csv` behind those of refusals.
const MORE: [&str; 19] = [
    "refused_by_19_wrong_fcs",
    "refused_by_19_right_fcs",
    "first_time",
    "last_time",
    "sequence_numbers_never_heard",
    "key_numbers",
    "first_counter",
    "highest_counter",
    "received",
    "gaps",
    "gaps_refused",
    "jumps",
    "counters_passed_over",
    "starts_anew",
    "not_above",
    "lost_at_least",
    "lost_at_most",
    "loss_rate_at_least",
    "loss_rate_at_most",
];

/// The table as comma-separated values, a column for each refusal.
pub fn csv_table(rows: &[Row], layout: Layout) -> String {
    let names = layout.names;
    let numbers: Vec<String> = refusals(names).map(|refusal| format!("refused_by_{}", refusal.number())).collect();
    let mut heads: Vec<&str> = layout.by.map(By::name).into_iter().collect();
    heads.extend(layout.by_sender.then_some(["ieee", "short"]).into_iter().flatten());
    heads.push(names.done);
    heads.extend(names.clear.then_some("clear"));
    heads.push("refused");
    heads.extend(numbers.iter().map(String::as_str));
    heads.extend(MORE);
    let mut text = csv::row(heads);
    for row in rows {
        text += &csv::row(cells(row, layout).iter().map(String::as_str));
    }
    text
}

/// The cells of a row.
fn cells(row: &Row, layout: Layout) -> Vec<String> {
    let mut cells: Vec<String> = row.period(layout).into_iter().collect();
    if layout.by_sender {
        let ieee = match row.whose {
            Whose::Long(_) | Whose::Further => row.sender(),
            _ => String::new(),
        };
        cells.extend([ieee, row.shorts()]);
    }
    cells.push(row.accepted.to_string());
    cells.extend(layout.names.clear.then(|| row.clear.to_string()));
    cells.push(row.refused.all().to_string());
    cells.extend(refusals(layout.names).map(|refusal| row.refused.of(refusal).to_string()));
    cells.extend([row.refused.wrong_mic.wrong_fcs.to_string(), row.refused.wrong_mic.right_fcs.to_string()]);
    cells.extend([shown(row.first), shown(row.last), shown(row.sequences())]);
    let mut keys: Vec<u8> = row.losses.iter().map(|(key, _)| *key).collect();
    keys.sort_unstable();
    keys.dedup();
    cells.push(keys.iter().map(u8::to_string).collect::<Vec<_>>().join(" "));
    let has_range = layout.by_sender && keys.len() == 1;
    cells.extend(row.all_losses().map_or_else(Default::default, |losses| loss_cells(&losses, has_range)));
    cells
}

/// The figures of a row. The counters of one key number have a range, and those of several have none.
fn loss_cells(losses: &Losses, has_range: bool) -> [String; 13] {
    let range = losses.range.filter(|_| has_range);
    let (low, high) = rates(losses);
    let rate = |rate: f64| format!("{rate:.4}");
    [
        shown(range.map(|(first, _)| first)),
        shown(range.map(|(_, highest)| highest)),
        losses.received.to_string(),
        losses.gaps().to_string(),
        losses.refused.to_string(),
        losses.jumps.to_string(),
        losses.passed_over.to_string(),
        losses.starts_anew.to_string(),
        losses.at_or_below.to_string(),
        losses.at_least().to_string(),
        shown(losses.at_most()),
        rate(low),
        shown(high.map(rate)),
    ]
}
