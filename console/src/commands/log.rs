//! The calls of the log.
use super::{call, Command};
use crate::answers::{found, outcome};
use crate::params::{CH, IDX, LEN, MARK, N, NEW, OLD, TEXT};
use crate::show::quoted;

pub const COMMANDS: &[Command] = &[
    call("begin", &[], "opens a group; its mark is for cancel", |l, _| {
        found(l.begin().map(Some), |mark| format!("mark {mark}"))
    }),
    call("end", &[], "closes all open groups", |l, _| outcome(l.end())),
    call("undo", &[N], "undoes n units: records, or groups that are closed", |l, a| outcome(l.undo(a.n))),
    call("redo", &[N], "redoes n units", |l, a| outcome(l.redo(a.n))),
    call("cancel", &[MARK], "takes back the open group with this mark, as if it had never been", |l, a| {
        outcome(l.cancel(a.mark))
    }),
    call("last_insert", &[], "the text that was last put in", |l, _| found(l.last_insert(), quoted)),
    call("log_insert", &[IDX, CH], "records a character typed at idx; the text stays", |l, a| {
        outcome(l.log_insert(a.idx, a.ch))
    }),
    call("log_insert_str", &[IDX, TEXT], "records a text put in at idx; the text stays", |l, a| {
        outcome(l.log_insert_str(a.idx, &a.text))
    }),
    call("log_delete", &[IDX, TEXT], "records a text cut at idx; the text stays", |l, a| {
        outcome(l.log_delete(a.idx, &a.text))
    }),
    call("log_replace", &[IDX, OLD, NEW], "records that old became new at idx; the text stays", |l, a| {
        outcome(l.log_replace(a.idx, &a.old, &a.text))
    }),
    call("truncate", &[LEN], "keeps the first len records; text, level and redo list stay", |l, a| {
        outcome(l.log_truncate(a.len))
    }),
];
