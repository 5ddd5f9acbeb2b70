//! The functions of `include/khuyapesh.h`, each over slices. The only file with `unsafe`: a slice and a reference to a
//! number of our own are all that is asked of the pointers there.

#![allow(unsafe_code)]

use crate::{Report, Spans, Why};

extern "C" {
    fn khuyapesh_call(
        kind: u8,
        stored: *mut u8,
        stored_length: usize,
        request: *const u8,
        request_length: usize,
        reply: *mut u8,
        reply_length: usize,
    ) -> u32;
    fn khuyapesh_several(
        stored: *mut u8,
        stored_length: usize,
        bytes: *const u8,
        bytes_length: usize,
        reply: *mut u8,
        reply_length: usize,
        taken: *mut usize,
        answered: *mut usize,
        written: *mut usize,
    ) -> u32;
    fn khuyapesh_banked_call(
        kind: u8,
        stored: *mut u8,
        stored_length: usize,
        bank: *mut u8,
        bank_length: usize,
        request: *const u8,
        request_length: usize,
        reply: *mut u8,
        reply_length: usize,
    ) -> u32;
    fn khuyapesh_banked_several(
        stored: *mut u8,
        stored_length: usize,
        bank: *mut u8,
        bank_length: usize,
        bytes: *const u8,
        bytes_length: usize,
        reply: *mut u8,
        reply_length: usize,
        taken: *mut usize,
        answered: *mut usize,
        written: *mut usize,
    ) -> u32;
    fn khuyapesh_board(
        kind: u8,
        stored: *mut u8,
        stored_length: usize,
        request: *const u8,
        request_length: usize,
        reply: *mut u8,
        reply_length: usize,
    ) -> u32;
    fn khuyapesh_modbus(
        stored: *mut u8,
        stored_length: usize,
        request: *const u8,
        request_length: usize,
        reply: *mut u8,
        reply_length: usize,
    ) -> u32;
    fn khuyapesh_banked_modbus(
        stored: *mut u8,
        stored_length: usize,
        bank: *const u8,
        bank_length: usize,
        request: *const u8,
        request_length: usize,
        reply: *mut u8,
        reply_length: usize,
    ) -> u32;
    fn khuyapesh_drum_begin(
        address: u8,
        recipe: u8,
        factor: u32,
        preset: u32,
        state: *mut u8,
        state_length: usize,
        request: *mut u8,
        request_length: usize,
    ) -> u32;
    fn khuyapesh_drum_take(
        state: *mut u8,
        state_length: usize,
        reply: *const u8,
        reply_length: usize,
        request: *mut u8,
        request_length: usize,
    ) -> u32;
    fn khuyapesh_panel(event: u8, number: u16, stored: *mut u8, stored_length: usize) -> u32;
    fn khuyapesh_stored(
        stored: *const u8,
        stored_length: usize,
        out: *mut u8,
        out_length: usize,
    ) -> u32;
    fn khuyapesh_bank(bank: *const u8, bank_length: usize, out: *mut u8, out_length: usize) -> u32;
    fn khuyapesh_totals(
        raws: *const u32,
        raws_length: usize,
        factors: *const u32,
        factors_length: usize,
        recipes: *const u32,
        recipes_length: usize,
        sums: *mut u64,
        sums_length: usize,
        counts: *mut u32,
        counts_length: usize,
    ) -> u32;
    fn khuyapesh_bank_totals(
        bank: *const u8,
        bank_length: usize,
        sums: *mut u64,
        sums_length: usize,
        counts: *mut u32,
        counts_length: usize,
    ) -> u32;
    fn khuyapesh_units(sum: u64, out: *mut u8, out_length: usize) -> u32;
    fn khuyapesh_totals_text(
        bank: *const u8,
        bank_length: usize,
        out: *mut u8,
        out_length: usize,
        written: *mut usize,
    ) -> u32;
    fn khuyapesh_build(
        kind: u8,
        text: *const u8,
        text_length: usize,
        out: *mut u8,
        out_length: usize,
    ) -> u32;
    fn khuyapesh_read(
        kind: u8,
        frame: *const u8,
        frame_length: usize,
        out: *mut u8,
        out_length: usize,
    ) -> u32;
    fn khuyapesh_judge(
        recording: *const u8,
        recording_length: usize,
        place: *mut usize,
        count: *mut usize,
    ) -> u32;
    fn khuyapesh_known(
        recording: *const u8,
        recording_length: usize,
        exchanges: usize,
        sets: *mut u32,
        sets_length: usize,
        place: *mut usize,
    ) -> u32;
    fn khuyapesh_learn(
        address: u8,
        access: u8,
        request: *const u8,
        request_length: usize,
        reply: *const u8,
        reply_length: usize,
        sets: *mut u32,
        sets_length: usize,
    ) -> u32;
    fn khuyapesh_may_hold(field: usize, set: u32, number: u32) -> u32;
    fn khuyapesh_why(
        recording: *const u8,
        recording_length: usize,
        place: *mut usize,
        number: *mut u32,
        held: *mut u32,
        needed: *mut u32,
    ) -> u32;
    fn khuyapesh_exchange(
        recording: *const u8,
        recording_length: usize,
        at: usize,
        request: *mut usize,
        stop: *mut usize,
        reply: *mut usize,
        end: *mut usize,
    ) -> u32;
}

/// One call of the controller.
pub fn call(kind: u8, stored: &mut [u8], request: &[u8], reply: &mut [u8]) -> u32 {
    // SAFETY: pointers and lengths of live slices; those that are written overlap no other.
    unsafe {
        khuyapesh_call(
            kind,
            stored.as_mut_ptr(),
            stored.len(),
            request.as_ptr(),
            request.len(),
            reply.as_mut_ptr(),
            reply.len(),
        )
    }
}

/// All minicomputer frames in the lent bytes: the answer, and what is reported beside it.
pub fn several(stored: &mut [u8], bytes: &[u8], reply: &mut [u8]) -> (u32, Report) {
    // No number is one that the library should leave.
    let mut report = Report {
        taken: usize::MAX,
        answered: usize::MAX,
        written: usize::MAX,
    };
    // SAFETY: pointers and lengths of live slices, and pointers to three numbers of our own; what is
    // written overlaps nothing else.
    let answer = unsafe {
        khuyapesh_several(
            stored.as_mut_ptr(),
            stored.len(),
            bytes.as_ptr(),
            bytes.len(),
            reply.as_mut_ptr(),
            reply.len(),
            &mut report.taken,
            &mut report.answered,
            &mut report.written,
        )
    };
    (answer, report)
}

/// One call of the controller with a bank of finished batches beside its record.
pub fn banked_call(
    kind: u8,
    stored: &mut [u8],
    bank: &mut [u8],
    request: &[u8],
    reply: &mut [u8],
) -> u32 {
    // SAFETY: pointers and lengths of live slices; those that are written overlap no other.
    unsafe {
        khuyapesh_banked_call(
            kind,
            stored.as_mut_ptr(),
            stored.len(),
            bank.as_mut_ptr(),
            bank.len(),
            request.as_ptr(),
            request.len(),
            reply.as_mut_ptr(),
            reply.len(),
        )
    }
}

/// All minicomputer frames in the lent bytes, with a bank beside the record: the answer, and what is reported beside it.
pub fn banked_several(
    stored: &mut [u8],
    bank: &mut [u8],
    bytes: &[u8],
    reply: &mut [u8],
) -> (u32, Report) {
    // No number is one that the library should leave.
    let mut report = Report {
        taken: usize::MAX,
        answered: usize::MAX,
        written: usize::MAX,
    };
    // SAFETY: pointers and lengths of live slices, and pointers to three numbers of our own; what is
    // written overlaps nothing else.
    let answer = unsafe {
        khuyapesh_banked_several(
            stored.as_mut_ptr(),
            stored.len(),
            bank.as_mut_ptr(),
            bank.len(),
            bytes.as_ptr(),
            bytes.len(),
            reply.as_mut_ptr(),
            reply.len(),
            &mut report.taken,
            &mut report.answered,
            &mut report.written,
        )
    };
    (answer, report)
}

/// One call of a board, its records end to end in their stored form.
pub fn board(kind: u8, stored: &mut [u8], request: &[u8], reply: &mut [u8]) -> u32 {
    // SAFETY: pointers and lengths of live slices; those that are written overlap no other.
    unsafe {
        khuyapesh_board(
            kind,
            stored.as_mut_ptr(),
            stored.len(),
            request.as_ptr(),
            request.len(),
            reply.as_mut_ptr(),
            reply.len(),
        )
    }
}

/// One call of the controller as a slave on Modbus RTU.
pub fn modbus(stored: &mut [u8], request: &[u8], reply: &mut [u8]) -> u32 {
    // SAFETY: pointers and lengths of live slices; those that are written overlap no other.
    unsafe {
        khuyapesh_modbus(
            stored.as_mut_ptr(),
            stored.len(),
            request.as_ptr(),
            request.len(),
            reply.as_mut_ptr(),
            reply.len(),
        )
    }
}

/// The same with a bank of finished batches beside the record, which is only read.
pub fn banked_modbus(stored: &mut [u8], bank: &[u8], request: &[u8], reply: &mut [u8]) -> u32 {
    // SAFETY: pointers and lengths of live slices; those that are written overlap no other.
    unsafe {
        khuyapesh_banked_modbus(
            stored.as_mut_ptr(),
            stored.len(),
            bank.as_ptr(),
            bank.len(),
            request.as_ptr(),
            request.len(),
            reply.as_mut_ptr(),
            reply.len(),
        )
    }
}

/// Begins a drum change.
pub fn drum_begin(
    address: u8,
    recipe: u8,
    factor: u32,
    preset: u32,
    state: &mut [u8],
    request: &mut [u8],
) -> u32 {
    // SAFETY: pointers and lengths of live slices that do not overlap.
    unsafe {
        khuyapesh_drum_begin(
            address,
            recipe,
            factor,
            preset,
            state.as_mut_ptr(),
            state.len(),
            request.as_mut_ptr(),
            request.len(),
        )
    }
}

/// Takes the reply to the request of a drum change that was handed out last.
pub fn drum_take(state: &mut [u8], reply: &[u8], request: &mut [u8]) -> u32 {
    // SAFETY: pointers and lengths of live slices; those that are written overlap no other.
    unsafe {
        khuyapesh_drum_take(
            state.as_mut_ptr(),
            state.len(),
            reply.as_ptr(),
            reply.len(),
            request.as_mut_ptr(),
            request.len(),
        )
    }
}

/// One panel event.
pub fn panel(event: u8, number: u16, stored: &mut [u8]) -> u32 {
    // SAFETY: pointer and length of a live slice.
    unsafe { khuyapesh_panel(event, number, stored.as_mut_ptr(), stored.len()) }
}

/// Reads a stored record and writes what was read.
pub fn stored(stored: &[u8], out: &mut [u8]) -> u32 {
    // SAFETY: pointers and lengths of live slices that do not overlap.
    unsafe { khuyapesh_stored(stored.as_ptr(), stored.len(), out.as_mut_ptr(), out.len()) }
}

/// Reads a stored bank and writes what was read.
pub fn bank(bank: &[u8], out: &mut [u8]) -> u32 {
    // SAFETY: pointers and lengths of live slices that do not overlap.
    unsafe { khuyapesh_bank(bank.as_ptr(), bank.len(), out.as_mut_ptr(), out.len()) }
}

/// Adds batches up: for each recipe its sum, in ten-thousandths of a unit, and how many batches it has.
pub fn totals(
    raws: &[u32],
    factors: &[u32],
    recipes: &[u32],
    sums: &mut [u64],
    counts: &mut [u32],
) -> u32 {
    // SAFETY: pointers and lengths of live slices; those that are written overlap no other.
    unsafe {
        khuyapesh_totals(
            raws.as_ptr(),
            raws.len(),
            factors.as_ptr(),
            factors.len(),
            recipes.as_ptr(),
            recipes.len(),
            sums.as_mut_ptr(),
            sums.len(),
            counts.as_mut_ptr(),
            counts.len(),
        )
    }
}

/// Adds up the batches of a stored bank.
pub fn bank_totals(bank: &[u8], sums: &mut [u64], counts: &mut [u32]) -> u32 {
    // SAFETY: pointers and lengths of live slices; those that are written overlap no other.
    unsafe {
        khuyapesh_bank_totals(
            bank.as_ptr(),
            bank.len(),
            sums.as_mut_ptr(),
            sums.len(),
            counts.as_mut_ptr(),
            counts.len(),
        )
    }
}

/// Writes a sum, in ten-thousandths of a unit, as units with four decimals.
pub fn units(sum: u64, out: &mut [u8]) -> u32 {
    // SAFETY: pointer and length of a live slice.
    unsafe { khuyapesh_units(sum, out.as_mut_ptr(), out.len()) }
}

/// Writes the text of a stored bank's totals: the answer, and how many bytes were written.
pub fn totals_text(bank: &[u8], out: &mut [u8]) -> (u32, usize) {
    // Not a number that the library should leave.
    let mut written = usize::MAX;
    // SAFETY: pointers and lengths of live slices that do not overlap, and a pointer to a number of our own.
    let answer = unsafe {
        khuyapesh_totals_text(
            bank.as_ptr(),
            bank.len(),
            out.as_mut_ptr(),
            out.len(),
            &mut written,
        )
    };
    (answer, written)
}

/// Builds the frame of a text.
pub fn build(kind: u8, text: &[u8], out: &mut [u8]) -> u32 {
    // SAFETY: pointers and lengths of live slices that do not overlap.
    unsafe { khuyapesh_build(kind, text.as_ptr(), text.len(), out.as_mut_ptr(), out.len()) }
}

/// Copies a frame's text.
pub fn read(kind: u8, frame: &[u8], out: &mut [u8]) -> u32 {
    // SAFETY: pointers and lengths of live slices that do not overlap.
    unsafe {
        khuyapesh_read(
            kind,
            frame.as_ptr(),
            frame.len(),
            out.as_mut_ptr(),
            out.len(),
        )
    }
}

/// Judges a recording: the answer, the place and the count.
pub fn judge(recording: &[u8]) -> (u32, usize, usize) {
    // Neither number is one that the library should leave.
    let (mut place, mut count) = (usize::MAX, usize::MAX);
    // SAFETY: pointer and length of a live slice, and pointers to two numbers of our own.
    let answer =
        unsafe { khuyapesh_judge(recording.as_ptr(), recording.len(), &mut place, &mut count) };
    (answer, place, count)
}

/// What a recording tells of the record after its first exchanges: the answer and the place.
pub fn known(recording: &[u8], exchanges: usize, sets: &mut [u32]) -> (u32, usize) {
    let mut place = usize::MAX;
    // SAFETY: pointers and lengths of live slices that do not overlap, and a pointer to a number of our own.
    let answer = unsafe {
        khuyapesh_known(
            recording.as_ptr(),
            recording.len(),
            exchanges,
            sets.as_mut_ptr(),
            sets.len(),
            &mut place,
        )
    };
    (answer, place)
}

/// One exchange more: from the sets before it, those after it.
pub fn learn(address: u8, access: u8, request: &[u8], reply: &[u8], sets: &mut [u32]) -> u32 {
    // SAFETY: pointers and lengths of live slices; the one that is written overlaps no other.
    unsafe {
        khuyapesh_learn(
            address,
            access,
            request.as_ptr(),
            request.len(),
            reply.as_ptr(),
            reply.len(),
            sets.as_mut_ptr(),
            sets.len(),
        )
    }
}

/// Whether the set of a field has a number: 1 or 0.
pub fn may_hold(field: usize, set: u32, number: u32) -> u32 {
    // SAFETY: numbers alone.
    unsafe { khuyapesh_may_hold(field, set, number) }
}

/// Why a recording is refuted, or not judged to its end: the answer, and what is told beside it.
pub fn why(recording: &[u8]) -> (u32, Why) {
    // No number is one that the library should leave.
    let mut why = Why {
        place: usize::MAX,
        number: u32::MAX,
        held: u32::MAX,
        needed: u32::MAX,
    };
    // SAFETY: pointer and length of a live slice, and pointers to four numbers of our own.
    let answer = unsafe {
        khuyapesh_why(
            recording.as_ptr(),
            recording.len(),
            &mut why.place,
            &mut why.number,
            &mut why.held,
            &mut why.needed,
        )
    };
    (answer, why)
}

/// The exchange that begins at a byte of a recording: the answer, and where its request and its reply are.
pub fn exchange(recording: &[u8], at: usize) -> (u32, Spans) {
    // No number is one that the library should leave.
    let mut spans = Spans {
        request: usize::MAX,
        stop: usize::MAX,
        reply: usize::MAX,
        end: usize::MAX,
    };
    // SAFETY: pointer and length of a live slice, and pointers to four numbers of our own.
    let answer = unsafe {
        khuyapesh_exchange(
            recording.as_ptr(),
            recording.len(),
            at,
            &mut spans.request,
            &mut spans.stop,
            &mut spans.reply,
            &mut spans.end,
        )
    };
    (answer, spans)
}
