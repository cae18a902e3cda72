//! The library's own functions over slices, with the numbers that they take for a form and return;
//! `register.h` says what they mean. A slice is valid for its length and never null, and a slice lent
//! for writing overlaps no other: that is all the library asks.

/// A field of an answer, as the library numbers them.
#[derive(Clone, Copy)]
pub enum AnswerField {
    Begin,
    Reader,
    Value,
    Number,
    Count,
}

/// A field of a plan's header, as the library numbers them.
#[derive(Clone, Copy)]
pub enum HeaderField {
    Servers,
    Faulty,
    Delta,
    Period,
    Readers,
    Ticks,
    Initial,
    Operations,
    Forgeries,
}

mod library {
    extern "C" {
        pub fn register_check(form: usize, plan: *const u8, plan_length: usize) -> usize;
        pub fn register_forecast(
            form: usize,
            plan: *const u8,
            plan_length: usize,
            numbers: *mut u32,
            numbers_length: usize,
        ) -> usize;
        pub fn register_play(
            form: usize,
            plan: *const u8,
            plan_length: usize,
            answers: *mut u8,
            answers_length: usize,
            workspace: *mut u8,
            workspace_length: usize,
        ) -> usize;
        pub fn register_look(
            form: usize,
            plan: *const u8,
            plan_length: usize,
            workspace: *mut u8,
            workspace_length: usize,
            server: usize,
            tick: usize,
            pairs: *mut u8,
            pairs_length: usize,
        ) -> usize;
        pub fn register_judge(
            form: usize,
            plan: *const u8,
            plan_length: usize,
            answers: *const u8,
            answers_length: usize,
        ) -> usize;
        pub fn register_sheet(
            form: usize,
            plan: *const u8,
            plan_length: usize,
            answers: *const u8,
            answers_length: usize,
            page: *mut u8,
            page_length: usize,
        ) -> usize;
        pub fn register_answer(
            form: usize,
            answers: *const u8,
            answers_length: usize,
            index: usize,
            field: usize,
        ) -> usize;
        pub fn register_header(
            form: usize,
            plan: *const u8,
            plan_length: usize,
            field: usize,
        ) -> usize;
        pub fn register_pack(
            form: usize,
            header: *const u32,
            header_length: usize,
            placements: *const u32,
            placements_length: usize,
            operations: *const u32,
            operations_length: usize,
            forgeries: *const u32,
            forgeries_length: usize,
            delays: *const u32,
            delays_length: usize,
            out: *mut u8,
            out_length: usize,
        ) -> usize;
        pub fn register_carry(
            plan: *const u8,
            plan_length: usize,
            out: *mut u8,
            out_length: usize,
        ) -> usize;
        pub fn register_carry_back(
            plan: *const u8,
            plan_length: usize,
            out: *mut u8,
            out_length: usize,
        ) -> usize;
    }
}

pub fn check(form: usize, plan: &[u8]) -> usize {
    // SAFETY: the pointer and length are a slice's.
    unsafe { library::register_check(form, plan.as_ptr(), plan.len()) }
}

pub fn forecast(form: usize, plan: &[u8], numbers: &mut [u32]) -> usize {
    let (numbers, numbers_length) = (numbers.as_mut_ptr(), numbers.len());
    // SAFETY: the pointers and lengths are slices', and the one to write to is exclusive.
    unsafe { library::register_forecast(form, plan.as_ptr(), plan.len(), numbers, numbers_length) }
}

pub fn play(form: usize, plan: &[u8], answers: &mut [u8], workspace: &mut [u8]) -> usize {
    let (answers, answers_length) = (answers.as_mut_ptr(), answers.len());
    let (workspace, workspace_length) = (workspace.as_mut_ptr(), workspace.len());
    // SAFETY: the pointers and lengths are slices', and the two to write to are exclusive.
    unsafe {
        library::register_play(
            form,
            plan.as_ptr(),
            plan.len(),
            answers,
            answers_length,
            workspace,
            workspace_length,
        )
    }
}

pub fn look(
    form: usize,
    plan: &[u8],
    workspace: &mut [u8],
    server: usize,
    tick: usize,
    pairs: &mut [u8],
) -> usize {
    let (workspace, workspace_length) = (workspace.as_mut_ptr(), workspace.len());
    let (pairs, pairs_length) = (pairs.as_mut_ptr(), pairs.len());
    // SAFETY: the pointers and lengths are slices', and the two to write to are exclusive.
    unsafe {
        library::register_look(
            form,
            plan.as_ptr(),
            plan.len(),
            workspace,
            workspace_length,
            server,
            tick,
            pairs,
            pairs_length,
        )
    }
}

pub fn judge(form: usize, plan: &[u8], answers: &[u8]) -> usize {
    // SAFETY: the pointers and lengths are slices'.
    unsafe {
        library::register_judge(form, plan.as_ptr(), plan.len(), answers.as_ptr(), answers.len())
    }
}

pub fn sheet(form: usize, plan: &[u8], answers: &[u8], page: &mut [u8]) -> usize {
    // SAFETY: the pointers and lengths are slices', and the one to write to is exclusive.
    unsafe {
        library::register_sheet(
            form,
            plan.as_ptr(),
            plan.len(),
            answers.as_ptr(),
            answers.len(),
            page.as_mut_ptr(),
            page.len(),
        )
    }
}

pub fn answer(form: usize, answers: &[u8], index: usize, field: AnswerField) -> usize {
    // SAFETY: the pointer and length are a slice's.
    unsafe {
        library::register_answer(form, answers.as_ptr(), answers.len(), index, field as usize)
    }
}

pub fn header(form: usize, plan: &[u8], field: HeaderField) -> usize {
    // SAFETY: the pointer and length are a slice's.
    unsafe { library::register_header(form, plan.as_ptr(), plan.len(), field as usize) }
}

pub fn pack(
    form: usize,
    header: &[u32],
    placements: &[u32],
    operations: &[u32],
    forgeries: &[u32],
    delays: &[u32],
    out: &mut [u8],
) -> usize {
    // SAFETY: the pointers and lengths are slices', and the one to write to is exclusive.
    unsafe {
        library::register_pack(
            form,
            header.as_ptr(),
            header.len(),
            placements.as_ptr(),
            placements.len(),
            operations.as_ptr(),
            operations.len(),
            forgeries.as_ptr(),
            forgeries.len(),
            delays.as_ptr(),
            delays.len(),
            out.as_mut_ptr(),
            out.len(),
        )
    }
}

pub fn carry(plan: &[u8], out: &mut [u8]) -> usize {
    // SAFETY: the pointers and lengths are slices', and the one to write to is exclusive.
    unsafe { library::register_carry(plan.as_ptr(), plan.len(), out.as_mut_ptr(), out.len()) }
}

pub fn carry_back(plan: &[u8], out: &mut [u8]) -> usize {
    // SAFETY: the pointers and lengths are slices', and the one to write to is exclusive.
    unsafe { library::register_carry_back(plan.as_ptr(), plan.len(), out.as_mut_ptr(), out.len()) }
}

#[cfg(test)]
mod tests {
    use super::*;
    use crate::refusal::{Refusal, REFUSED};
    use crate::{FORECAST_NUMBERS, WORKSPACE_BYTES};

    const PLAN: &[u8] = include_bytes!("../../../examples/takeover.plan");

    /// Numbers that name no form.
    const UNKNOWN: [usize; 5] = [0, 3, 4, 1 << 32 | 1, usize::MAX];

    /// What the library returns then.
    const NO_SUCH_FORM: usize = REFUSED + Refusal::PlanShort as usize;

    /// What lent bytes hold before a call.
    const BEFORE: u8 = 0xa5;

    #[test]
    fn operations_in_no_form() {
        for form in UNKNOWN {
            let (mut lent, mut workspace) = ([BEFORE; 100], vec![BEFORE; WORKSPACE_BYTES]);
            let mut numbers = [u32::MAX; FORECAST_NUMBERS];
            for plan in [PLAN, &[]] {
                assert_eq!(check(form, plan), NO_SUCH_FORM);
                assert_eq!(forecast(form, plan, &mut numbers), NO_SUCH_FORM);
                assert_eq!(play(form, plan, &mut lent, &mut workspace), NO_SUCH_FORM);
                assert_eq!(look(form, plan, &mut workspace, 0, 0, &mut lent), NO_SUCH_FORM);
                assert_eq!(judge(form, plan, &lent), NO_SUCH_FORM);
                assert_eq!(sheet(form, plan, &[], &mut lent), NO_SUCH_FORM);
            }
            let header = [1, 0, 1, 1, 1, 3, 7, 1, 0, 0];
            let delays = [0, 0, 1, 1, 0, 0, 1, 0, 0].repeat(3);
            let refused = pack(form, &header, &[0; 3], &[0, 1, 0], &[], &delays, &mut lent);
            assert_eq!(refused, NO_SUCH_FORM);
            assert_eq!(pack(form, &[], &[], &[], &[], &[], &mut lent), NO_SUCH_FORM);
            assert!(lent.iter().chain(&workspace).all(|&byte| byte == BEFORE));
            assert_eq!(numbers, [u32::MAX; FORECAST_NUMBERS]);
        }
    }

    #[test]
    fn fields_in_no_form() {
        for form in UNKNOWN {
            assert_eq!(answer(form, &[0xff; 60], 0, AnswerField::Value), 0);
            assert_eq!(header(form, PLAN, HeaderField::Servers), 0);
        }
    }
}
