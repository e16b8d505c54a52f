//! Our static library, called as a C program calls it, with every byte of every lent buffer looked at afterwards.

use crate::calls::Call;
use crate::model::{Event, Report};

extern "C" {
    fn pursegable_layout(
        table: *const u32,
        table_len: usize,
        text: *const u8,
        text_len: usize,
        width: u32,
        limit: u32,
        out: *mut u8,
        out_len: usize,
        events: *mut Event,
        events_len: usize,
        work: *mut u32,
        work_len: usize,
        report: *mut u32,
        report_len: usize,
    ) -> u32;
    fn pursegable_layout_words(
        table: *const u32,
        table_len: usize,
        text: *const u8,
        text_len: usize,
        width: u32,
        limit: u32,
        out: *mut u8,
        out_len: usize,
        events: *mut u32,
        events_len: usize,
        work: *mut u32,
        work_len: usize,
        report: *mut u32,
        report_len: usize,
    ) -> u32;
    fn pursegable_why(
        table: *const u32,
        table_len: usize,
        text: *const u8,
        text_len: usize,
        width: u32,
        limit: u32,
        step: u32,
        out: *mut u8,
        out_len: usize,
        events: *mut u32,
        events_len: usize,
        work: *mut u32,
        work_len: usize,
        report: *mut u32,
        report_len: usize,
    ) -> u32;
    fn pursegable_sheet(
        table: *const u32,
        table_len: usize,
        text: *const u8,
        text_len: usize,
        out: *mut u8,
        out_len: usize,
        events: *mut Event,
        events_len: usize,
        work: *mut u32,
        work_len: usize,
        report: *mut u32,
        report_len: usize,
    ) -> u32;
    fn pursegable_label(
        table: *const u32,
        table_len: usize,
        text: *const u8,
        text_len: usize,
        out: *mut u8,
        out_len: usize,
        events: *mut Event,
        events_len: usize,
        work: *mut u32,
        work_len: usize,
        report: *mut u32,
        report_len: usize,
    ) -> u32;
}

/// Which of the exports is called.
#[derive(Clone, Copy, Debug, PartialEq, Eq)]
pub enum Export {
    /// events as records
    Layout,
    /// events as words, three to a record
    Words,
    /// 42 columns and 1,000,000 steps
    Sheet,
    Label,
}

impl Export {
    /// The exports that such a call can be made by.
    pub fn for_call(call: &Call) -> &'static [Export] {
        use Export::*;
        if call.width == 42 && call.limit == 1_000_000 {
            &[Layout, Words, Sheet, Label]
        } else {
            &[Layout, Words]
        }
    }
}

/// The buffers that are lent, used again from call to call.
#[derive(Default)]
pub struct Lent {
    pub out: Vec<u8>,
    pub events: Vec<Event>,
    pub work: Vec<u32>,
    pub report: Vec<u32>,
}

impl Lent {
    /// Buffers of a call's sizes.
    pub fn sized(call: &Call) -> Lent {
        let mut lent = Lent::default();
        lent.soil(call);
        lent
    }

    fn soil(&mut self, call: &Call) {
        let soiled = Event { offset: 0x5a5a_5a5a, mark: 0x5a5a_5a5a, label: 0x5a5a_5a5a };
        self.out.clear();
        self.out.resize(call.room, 0x5a);
        self.events.clear();
        self.events.resize(call.slots, soiled);
        self.work.clear();
        self.work.resize(call.work, 0x5a5a_5a5a);
        self.report.clear();
        self.report.resize(call.report, 0x5a5a_5a5a);
    }

    /// Why the visit at a step goes flat or broken.
    pub fn why(&mut self, table: &[u32], text: &[u8], width: u32, limit: u32, step: u32) -> u32 {
        let (t, tl, x, xl) = (table.as_ptr(), table.len(), text.as_ptr(), text.len());
        let (o, ol) = (self.out.as_mut_ptr(), self.out.len());
        let (e, el) = (self.events.as_mut_ptr(), self.events.len());
        let (w, wl) = (self.work.as_mut_ptr(), self.work.len());
        let (r, rl) = (self.report.as_mut_ptr(), self.report.len());
        // SAFETY: as in `call`.
        unsafe { pursegable_why(t, tl, x, xl, width, limit, step, o, ol, e.cast(), 3 * el, w, wl, r, rl) }
    }

    /// The call itself. Sheet and label don't look at the width and the limit.
    pub fn call(&mut self, export: Export, table: &[u32], text: &[u8], width: u32, limit: u32) -> u32 {
        let (t, tl, x, xl) = (table.as_ptr(), table.len(), text.as_ptr(), text.len());
        let (o, ol) = (self.out.as_mut_ptr(), self.out.len());
        let (e, el) = (self.events.as_mut_ptr(), self.events.len());
        let (w, wl) = (self.work.as_mut_ptr(), self.work.len());
        let (r, rl) = (self.report.as_mut_ptr(), self.report.len());
        // SAFETY: each pointer is of a slice with the length handed beside it, and no two overlap. A record is three words.
        unsafe {
            match export {
                Export::Layout => pursegable_layout(t, tl, x, xl, width, limit, o, ol, e, el, w, wl, r, rl),
                Export::Words => pursegable_layout_words(t, tl, x, xl, width, limit, o, ol, e.cast(), 3 * el, w, wl, r, rl),
                Export::Sheet => pursegable_sheet(t, tl, x, xl, o, ol, e, el, w, wl, r, rl),
                Export::Label => pursegable_label(t, tl, x, xl, o, ol, e, el, w, wl, r, rl),
            }
        }
    }
}

/// What differs between our library's call, on soiled buffers, and the model's report; nothing if all is the same.
pub fn differs(export: Export, call: &Call, lent: &mut Lent, wanted: &Report) -> Option<String> {
    lent.soil(call);
    let answer = lent.call(export, &call.table.words, &call.table.text, call.width, call.limit);
    let short = Report { answer: 1, ..Report::default() };
    let wanted = if call.report < 5 { &short } else { wanted };
    if answer != wanted.answer {
        return Some(format!("{export:?}: answer {answer}, not {}", wanted.answer));
    }
    let words = [answer, wanted.place, wanted.steps, wanted.bytes.len() as u32, wanted.events.len() as u32];
    if call.report >= 5 && lent.report[..5] != words {
        return Some(format!("{export:?}: report {:?}, not {words:?}", &lent.report[..5]));
    }
    if !zero(lent.report.get(if call.report < 5 { 0 } else { 5 }..).unwrap_or_default()) {
        return Some(format!("{export:?}: the report's other words are {:?}", lent.report));
    }
    let used = wanted.bytes.len();
    if lent.out[..used] != wanted.bytes[..] || !zero(&lent.out[used..]) {
        return Some(format!("{export:?}: output {:?}", String::from_utf8_lossy(&lent.out)));
    }
    let used = wanted.events.len();
    let none = Event { offset: 0, mark: 0, label: 0 };
    if lent.events[..used] != wanted.events[..] || lent.events[used..].iter().any(|&e| e != none) {
        return Some(format!("{export:?}: events {:?}", &lent.events[..used]));
    }
    if !zero(&lent.work) {
        return Some(format!("{export:?}: work is not zero"));
    }
    None
}

/// What differs between our library's `why`, on soiled buffers, and the model's five words; nothing if all is the same.
pub fn why_differs(call: &Call, step: u32, lent: &mut Lent, wanted: [u32; 5]) -> Option<String> {
    lent.soil(call);
    let answer = lent.why(&call.table.words, &call.table.text, call.width, call.limit, step);
    let wanted = if call.report < 5 { [1, 0, 0, 0, 0] } else { wanted };
    if answer != wanted[0] || call.report >= 5 && lent.report[..5] != wanted {
        return Some(format!("why at step {step}: {answer}, report {:?}, not {wanted:?}", lent.report));
    }
    if !zero(lent.report.get(if call.report < 5 { 0 } else { 5 }..).unwrap_or_default()) {
        return Some(format!("why at step {step}: the report's other words are {:?}", lent.report));
    }
    let none = Event { offset: 0, mark: 0, label: 0 };
    if !zero(&lent.out) || lent.events.iter().any(|&e| e != none) || !zero(&lent.work) {
        return Some(format!("why at step {step}: a buffer is not zero"));
    }
    None
}

/// Whether all are zero, a block at a time.
fn zero<T: Copy + Default + PartialEq + std::ops::BitOr<Output = T>>(slice: &[T]) -> bool {
    slice.chunks(1024).all(|block| block.iter().fold(T::default(), |all, &one| all | one) == T::default())
}
