//! Link status in several frames (document 02, request 10): the pages of a list of neighbours, cut one after the other as the request says
//! it, and each of them as a written command.
use super::commands::{self, LINK_STATUSES};
use super::refuse;
use crate::support::neighbours::{list_of, slice_of, Neighbour, Request, NEIGHBOUR};
use crate::support::operations::COMMAND_RECORD;
use std::ops::RangeInclusive;

/// "From up to 200 neighbours."
pub const MOST: usize = 200;
/// "31 if p is not 2 to 31."
pub const PAGE_SIZES: RangeInclusive<u64> = 2..=31;
/// "A cost is above 7."
const HIGHEST_COST: u8 = 7;
const LINK_STATUS: u8 = 8;

/// "Page 0 has the first p neighbours; each later page starts with the last neighbour of the one before and has p too, the last page what is
/// left." "An empty list is one empty page."
pub fn pages(list: &[Neighbour], p: usize) -> Vec<&[Neighbour]> {
    let mut end = list.len().min(p);
    let mut pages = vec![&list[..end]];
    while end < list.len() {
        let start = end - 1;
        end = list.len().min(start + p);
        pages.push(&list[start..end]);
    }
    pages
}

/// The command record of a page with these bits.
pub fn record(page: &[Neighbour], first: bool, last: bool) -> Vec<u8> {
    let mut record = vec![0; COMMAND_RECORD];
    (record[0], record[1], record[2]) = (LINK_STATUS, first.into(), last.into());
    record[LINK_STATUSES.count_at] = page.len() as u8;
    let entries = slice_of(page);
    record[LINK_STATUSES.count_at + 1..][..entries.len()].copy_from_slice(&entries);
    record
}

/// "30 if there are more than 200 neighbours, a cost is above 7 or addresses do not strictly rise."
fn is_refused(list: &[Neighbour]) -> bool {
    let too_high = |neighbour: &Neighbour| neighbour.incoming > HIGHEST_COST || neighbour.outgoing > HIGHEST_COST;
    let rise = list.windows(2).all(|pair| pair[0].address < pair[1].address);
    list.len() > MOST || list.iter().any(too_high) || !rise
}

/// The answer as the C functions give it, and the bytes written to the front of the output.
pub fn run(request: &Request, slice: &[u8]) -> (u64, Vec<u8>) {
    match answered(request, slice) {
        Ok(done) => done,
        Err(refusal) => (u64::from(refusal) << 32, Vec::new()),
    }
}

/// 13 where the slice is no list of neighbours; then "30 ..; then 31 ..; then 32 if k is past the last page; then 18". "Only the first and
/// last pages bear those bits."
fn answered(request: &Request, slice: &[u8]) -> Result<(u64, Vec<u8>), u8> {
    refuse(&[(13, slice.len() % NEIGHBOUR != 0)])?;
    let (list, p) = (list_of(slice), request.page_size());
    refuse(&[(30, is_refused(&list)), (31, !PAGE_SIZES.contains(&p))])?;
    let pages = pages(&list, p as usize);
    let Request::Write { page, room, .. } = *request else {
        return Ok((pages.len() as u64, Vec::new()));
    };
    refuse(&[(32, page >= pages.len() as u64)])?;
    let k = page as usize;
    let command = commands::write(&record(pages[k], k == 0, k == pages.len() - 1))?;
    refuse(&[(18, room < command.len())])?;
    Ok((command.len() as u64, command))
}
