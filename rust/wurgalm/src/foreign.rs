//! The functions that the library exports, and the one place where they are called. Rattle passes a slice as its pointer and its
//! length; below the declarations each function has its safe form, which takes slices.
//!
//! They are safe on every slice: their proofs show that they read and write inside the slices they are lent, and end.

#[rustfmt::skip] // a line for each store, as in the header
mod symbols {
    extern "C" {
        pub(super) fn wurgalm_run_leading(
            rows: *mut i64, rows_length: usize, relations: *mut i64, relations_length: usize,
            m: usize, equations: usize, l: i64, t: i64, count: usize,
            result: *mut i64, result_length: usize,
        ) -> u8;
        pub(super) fn wurgalm_run_trailing(
            rows: *mut i64, rows_length: usize, relations: *mut i64, relations_length: usize,
            m: usize, equations: usize, l: i64, t: i64, count: usize,
            result: *mut i64, result_length: usize,
        ) -> u8;
        pub(super) fn wurgalm_read_sheet(
            bytes: *const u8, bytes_length: usize,
            rows: *mut i64, rows_length: usize, relations: *mut i64, relations_length: usize,
            result: *mut i64, result_length: usize,
        ) -> u8;
        pub(super) fn wurgalm_write_sheet(
            rows: *const i64, rows_length: usize, relations: *const i64, relations_length: usize,
            m: usize, equations: usize, l: i64, t: i64, count: usize, order: *const i64, order_length: usize,
            bytes: *mut u8, bytes_length: usize,
            result: *mut i64, result_length: usize,
        ) -> u8;
        pub(super) fn wurgalm_read_differential(
            bytes: *const u8, bytes_length: usize,
            rows: *mut i64, rows_length: usize, relations: *mut i64, relations_length: usize,
            result: *mut i64, result_length: usize,
        ) -> u8;
        pub(super) fn wurgalm_write_recurrence(
            sheet: *const u8, sheet_length: usize, bytes: *mut u8, bytes_length: usize,
            result: *mut i64, result_length: usize,
        ) -> u8;
        pub(super) fn wurgalm_check_record(
            rows: *const i64, rows_length: usize, relations: *const i64, relations_length: usize,
            m: usize, equations: usize, l: i64, t: i64, count: usize, first: i64, vectors: usize,
            values: *const i64, values_length: usize,
            result: *mut i64, result_length: usize,
        ) -> u8;
        pub(super) fn wurgalm_prepare(
            rows: *const i64, rows_length: usize, relations: *const i64, relations_length: usize,
            m: usize, equations: usize, l: i64, t: i64, count: usize,
            state: *mut i64, state_length: usize,
        ) -> u8;
        pub(super) fn wurgalm_run_steps(
            rows: *mut i64, rows_length: usize, relations: *mut i64, relations_length: usize,
            state: *mut i64, state_length: usize, budget: usize,
            result: *mut i64, result_length: usize,
        ) -> u8;
        pub(super) fn wurgalm_run_logged(
            rows: *mut i64, rows_length: usize, relations: *mut i64, relations_length: usize,
            m: usize, equations: usize, l: i64, t: i64, count: usize, log: *mut i64, log_length: usize,
            result: *mut i64, result_length: usize,
        ) -> u8;
        pub(super) fn wurgalm_replay(
            rows: *mut i64, rows_length: usize, relations: *mut i64, relations_length: usize,
            m: usize, equations: usize, l: i64, t: i64, count: usize, steps: usize, log: *const i64, log_length: usize,
            result: *mut i64, result_length: usize,
        ) -> u8;
        pub(super) fn wurgalm_solutions(
            rows: *const i64, rows_length: usize, relations: *const i64, relations_length: usize,
            m: usize, equations: usize, l: i64, t: i64, count: usize,
            work_rows: *mut i64, work_rows_length: usize, work_relations: *mut i64, work_relations_length: usize,
            work_matrix: *mut i64, work_matrix_length: usize, list: *mut i64, list_length: usize,
            result: *mut i64, result_length: usize,
        ) -> u8;
        pub(super) fn wurgalm_batch(
            input: *const u8, input_length: usize, output: *mut u8, output_length: usize,
            result: *mut i64, result_length: usize,
        ) -> u8;
    }
}

/// Ten numbers in `result`: relation count, shifts, c(1) to c(4), 1 or 0 for a root, the root, the rank, and how often the root occurs.
///
/// ```
/// let (mut rows, mut relations) = (vec![0; wurgalm::row_store(1)], vec![0; wurgalm::RELATION_STORE]);
/// (rows[0], rows[1]) = (-3, 1); // (n - 3) x(n) = 0
/// let mut result = [0; 10];
/// assert_eq!(wurgalm::stores::run_leading(&mut rows, &mut relations, 1, 1, 0, 0, 0, &mut result), 0);
/// assert_eq!(result, [0, 0, 1, 0, 0, 0, 1, 3, 1, 1]); // order 1, the root 3, rank 1, once
/// ```
#[allow(clippy::too_many_arguments)]
pub fn run_leading(
    rows: &mut [i64],
    relations: &mut [i64],
    m: usize,
    equations: usize,
    l: i64,
    t: i64,
    count: usize,
    result: &mut [i64],
) -> u8 {
    // SAFETY: three slices that are borrowed for the call, each by its own pointer and length.
    unsafe {
        symbols::wurgalm_run_leading(
            rows.as_mut_ptr(),
            rows.len(),
            relations.as_mut_ptr(),
            relations.len(),
            m,
            equations,
            l,
            t,
            count,
            result.as_mut_ptr(),
            result.len(),
        )
    }
}

/// As [`run_leading`], for the trailing side.
///
/// ```
/// let (mut rows, mut relations) = (vec![0; wurgalm::row_store(1)], vec![0; wurgalm::RELATION_STORE]);
/// (rows[0], rows[1], rows[2]) = (-6, -1, 1); // (n - 3) (n + 2) x(n) = 0
/// let mut result = [0; 10];
/// assert_eq!(wurgalm::stores::run_trailing(&mut rows, &mut relations, 1, 1, 0, 0, 0, &mut result), 0);
/// assert_eq!(result, [0, 0, 1, 0, 0, 0, 1, -2, 1, 1]); // order 1, the root -2, rank 1, once
/// ```
#[allow(clippy::too_many_arguments)]
pub fn run_trailing(
    rows: &mut [i64],
    relations: &mut [i64],
    m: usize,
    equations: usize,
    l: i64,
    t: i64,
    count: usize,
    result: &mut [i64],
) -> u8 {
    // SAFETY: as above.
    unsafe {
        symbols::wurgalm_run_trailing(
            rows.as_mut_ptr(),
            rows.len(),
            relations.as_mut_ptr(),
            relations.len(),
            m,
            equations,
            l,
            t,
            count,
            result.as_mut_ptr(),
            result.len(),
        )
    }
}

/// Nine numbers in `result`: m, l, t, relation count, c(1) to c(4), equation count.
///
/// ```
/// let (mut rows, mut relations) = (vec![0; wurgalm::row_store(1)], vec![0; wurgalm::RELATION_STORE]);
/// let (sheet, mut result) = (b"3 1 1 0\n1\n1 1 1 2 0 7\n0\n0\n", [0; 9]); // 7n x(n+1) = 0
/// assert_eq!(wurgalm::stores::read_sheet(sheet, &mut rows, &mut relations, &mut result), 0);
/// assert_eq!((rows[1], result), (7, [1, 1, 0, 0, 0, 0, 0, 0, 1]));
/// assert_eq!(wurgalm::stores::read_sheet(&sheet[..9], &mut rows, &mut relations, &mut result), 4);
/// ```
pub fn read_sheet(bytes: &[u8], rows: &mut [i64], relations: &mut [i64], result: &mut [i64]) -> u8 {
    // SAFETY: as above; `bytes` is only read.
    unsafe {
        symbols::wurgalm_read_sheet(
            bytes.as_ptr(),
            bytes.len(),
            rows.as_mut_ptr(),
            rows.len(),
            relations.as_mut_ptr(),
            relations.len(),
            result.as_mut_ptr(),
            result.len(),
        )
    }
}

/// One number in `result`: the length. `order` is four numbers.
///
/// ```
/// let (rows, relations) = (vec![0; wurgalm::row_store(1)], vec![0; wurgalm::RELATION_STORE]);
/// let (mut bytes, mut result) = ([0; 20], [0]);
/// let number = wurgalm::stores::write_sheet(&rows, &relations, 1, 0, 0, 0, 0, &[0; 4], &mut bytes, &mut result);
/// assert_eq!((number, result), (0, [14]));
/// assert_eq!(bytes[..14], *b"3 1 0 0\n0\n0\n0\n");
/// ```
#[allow(clippy::too_many_arguments)]
pub fn write_sheet(
    rows: &[i64],
    relations: &[i64],
    m: usize,
    equations: usize,
    l: i64,
    t: i64,
    count: usize,
    order: &[i64],
    bytes: &mut [u8],
    result: &mut [i64],
) -> u8 {
    // SAFETY: as above; `rows`, `relations` and `order` are only read.
    unsafe {
        symbols::wurgalm_write_sheet(
            rows.as_ptr(),
            rows.len(),
            relations.as_ptr(),
            relations.len(),
            m,
            equations,
            l,
            t,
            count,
            order.as_ptr(),
            order.len(),
            bytes.as_mut_ptr(),
            bytes.len(),
            result.as_mut_ptr(),
            result.len(),
        )
    }
}

/// The recurrence of a differential sheet. Nine numbers in `result`, as those of [`read_sheet`].
///
/// ```
/// let (mut rows, mut relations) = (vec![0; wurgalm::row_store(1)], vec![0; wurgalm::RELATION_STORE]);
/// let (sheet, mut result) = (b"3 1 1 0\n1\n2 1 0 1 1 0 0 1 -1\n", [0; 9]); // y' = y
/// assert_eq!(wurgalm::stores::read_differential(sheet, &mut rows, &mut relations, &mut result), 0);
/// assert_eq!((rows[0], rows[1]), (1, 1)); // (n + 1) y(n+1) - y(n) = 0
/// assert_eq!(result, [1, 1, 0, 0, 0, 0, 0, 0, 1]);
/// ```
pub fn read_differential(bytes: &[u8], rows: &mut [i64], relations: &mut [i64], result: &mut [i64]) -> u8 {
    // SAFETY: as above; `bytes` is only read.
    unsafe {
        symbols::wurgalm_read_differential(
            bytes.as_ptr(),
            bytes.len(),
            rows.as_mut_ptr(),
            rows.len(),
            relations.as_mut_ptr(),
            relations.len(),
            result.as_mut_ptr(),
            result.len(),
        )
    }
}

/// The recurrence of a differential sheet as a sheet. One number in `result`: its length.
///
/// ```
/// let (sheet, mut bytes, mut result) = (b"3 1 1 0\n1\n2 1 0 1 1 0 0 1 -1\n", [0; 100], [0]); // y' = y
/// assert_eq!(wurgalm::stores::write_recurrence(sheet, &mut bytes, &mut result), 0);
/// assert_eq!(bytes[..result[0] as usize], *b"3 1 1 0\n1\n2 1 1 2 1 1 0 1 1 -1\n0\n0\n");
/// ```
pub fn write_recurrence(sheet: &[u8], bytes: &mut [u8], result: &mut [i64]) -> u8 {
    // SAFETY: as above; `sheet` is only read.
    unsafe {
        symbols::wurgalm_write_recurrence(
            sheet.as_ptr(),
            sheet.len(),
            bytes.as_mut_ptr(),
            bytes.len(),
            result.as_mut_ptr(),
            result.len(),
        )
    }
}

/// Four numbers in `result`: 0 for "fits", 1 for an equation, 2 for a relation; how many were tested, or which one fails, from 1; its index
/// and its sum, both 0 with "fits". On 12 they are zero.
///
/// ```
/// let (mut rows, relations) = (vec![0; wurgalm::row_store(1)], vec![0; wurgalm::RELATION_STORE]);
/// (rows[0], rows[4 * wurgalm::COEFFICIENTS]) = (1, -2); // x(n+1) - 2 x(n) = 0
/// let mut result = [0; 4];
/// let record = [1, 2, 5]; // x(0), x(1), x(2)
/// let number = wurgalm::stores::check_record(&rows, &relations, 1, 1, 1, 0, 0, 0, 3, &record, &mut result);
/// assert_eq!((number, result), (0, [1, 1, 1, 1])); // equation 1 at n = 1 has the sum 1
/// ```
#[allow(clippy::too_many_arguments)]
pub fn check_record(
    rows: &[i64],
    relations: &[i64],
    m: usize,
    equations: usize,
    l: i64,
    t: i64,
    count: usize,
    first: i64,
    vectors: usize,
    values: &[i64],
    result: &mut [i64],
) -> u8 {
    // SAFETY: as above; `rows`, `relations` and `values` are only read.
    unsafe {
        symbols::wurgalm_check_record(
            rows.as_ptr(),
            rows.len(),
            relations.as_ptr(),
            relations.len(),
            m,
            equations,
            l,
            t,
            count,
            first,
            vectors,
            values.as_ptr(),
            values.len(),
            result.as_mut_ptr(),
            result.len(),
        )
    }
}

/// Eleven numbers in `state`: m, equations, l, t, relation count, settled rows, c(1) to c(4), shifts.
///
/// ```
/// let (rows, relations) = (vec![0; wurgalm::row_store(1)], vec![0; wurgalm::RELATION_STORE]);
/// let mut state = [9; 11];
/// assert_eq!(wurgalm::stores::prepare(&rows, &relations, 1, 1, 0, 0, 0, &mut state), 0);
/// assert_eq!(state, [1, 1, 0, 0, 0, 0, 0, 0, 0, 0, 0]);
/// ```
#[allow(clippy::too_many_arguments)]
pub fn prepare(
    rows: &[i64],
    relations: &[i64],
    m: usize,
    equations: usize,
    l: i64,
    t: i64,
    count: usize,
    state: &mut [i64],
) -> u8 {
    // SAFETY: as above; `rows` and `relations` are only read.
    unsafe {
        symbols::wurgalm_prepare(
            rows.as_ptr(),
            rows.len(),
            relations.as_ptr(),
            relations.len(),
            m,
            equations,
            l,
            t,
            count,
            state.as_mut_ptr(),
            state.len(),
        )
    }
}

/// Twelve numbers in `result`: the steps, 1 or 0 for a finished run, and the ten of [`run_leading`] if it is finished, otherwise zeros. The
/// state is that of [`prepare`] or of another call. On 7 to 10 the steps stand before zeros, and the state is zero.
///
/// ```
/// let (mut rows, mut relations) = (vec![0; wurgalm::row_store(1)], vec![0; wurgalm::RELATION_STORE]);
/// rows[0] = 5; // 5 x(n) = 0
/// let (mut state, mut result) = ([1, 1, 0, 0, 0, 0, 0, 0, 0, 0, 0], [0; 12]);
/// assert_eq!(wurgalm::stores::run_steps(&mut rows, &mut relations, &mut state, 7, &mut result), 0);
/// assert_eq!(result, [1, 1, 0, 0, 1, 0, 0, 0, 0, 0, 1, 0]); // one step, finished, order 1, rank 1
/// assert_eq!(state, [1, 1, 0, 0, 0, 1, 1, 0, 0, 0, 0]); // one row is settled, in column 1
/// ```
pub fn run_steps(rows: &mut [i64], relations: &mut [i64], state: &mut [i64], budget: usize, result: &mut [i64]) -> u8 {
    // SAFETY: as above, four slices.
    unsafe {
        symbols::wurgalm_run_steps(
            rows.as_mut_ptr(),
            rows.len(),
            relations.as_mut_ptr(),
            relations.len(),
            state.as_mut_ptr(),
            state.len(),
            budget,
            result.as_mut_ptr(),
            result.len(),
        )
    }
}

/// Eleven numbers in `result`: the ten of [`run_leading`], and the steps of the log. The log's store needs 36 × 1,000 + 4 numbers: the
/// steps stand at its front, the column order behind them, then zeros. On 7 to 10 all of them are zero.
///
/// ```
/// let (mut rows, mut relations) = (vec![0; wurgalm::row_store(1)], vec![0; wurgalm::RELATION_STORE]);
/// rows[0] = 5; // 5 x(n) = 0
/// let (mut log, mut result) = (vec![9; wurgalm::LOG_STEP * wurgalm::LOG_STEPS + 4], [0; 11]);
/// let number = wurgalm::stores::run_logged(&mut rows, &mut relations, 1, 1, 0, 0, 0, &mut log, &mut result);
/// assert_eq!((number, result), (0, [0, 0, 1, 0, 0, 0, 0, 0, 1, 0, 0])); // order 1, rank 1, no steps
/// assert_eq!(log[..4], [1, 0, 0, 0]); // the order stands behind the steps
/// ```
#[allow(clippy::too_many_arguments)]
pub fn run_logged(
    rows: &mut [i64],
    relations: &mut [i64],
    m: usize,
    equations: usize,
    l: i64,
    t: i64,
    count: usize,
    log: &mut [i64],
    result: &mut [i64],
) -> u8 {
    // SAFETY: as above, four slices.
    unsafe {
        symbols::wurgalm_run_logged(
            rows.as_mut_ptr(),
            rows.len(),
            relations.as_mut_ptr(),
            relations.len(),
            m,
            equations,
            l,
            t,
            count,
            log.as_mut_ptr(),
            log.len(),
            result.as_mut_ptr(),
            result.len(),
        )
    }
}

/// Ten numbers in `result`, those of [`run_leading`] with the steps up as the shifts. The log has 36 numbers for each of its steps and four
/// more. On 7 to 9 and on 13 the needed parts of rows, relations and result are zero.
///
/// ```
/// let (mut rows, mut relations) = (vec![0; wurgalm::row_store(1)], vec![0; wurgalm::RELATION_STORE]);
/// rows[0] = 5; // 5 x(n) = 0
/// let (log, mut result) = ([1, 0, 0, 0], [0; 10]); // no steps, the order 1
/// let number = wurgalm::stores::replay(&mut rows, &mut relations, 1, 1, 0, 0, 0, 0, &log, &mut result);
/// assert_eq!((number, result), (0, [0, 0, 1, 0, 0, 0, 0, 0, 1, 0]));
/// ```
#[allow(clippy::too_many_arguments)]
pub fn replay(
    rows: &mut [i64],
    relations: &mut [i64],
    m: usize,
    equations: usize,
    l: i64,
    t: i64,
    count: usize,
    steps: usize,
    log: &[i64],
    result: &mut [i64],
) -> u8 {
    // SAFETY: as above; `log` is only read.
    unsafe {
        symbols::wurgalm_replay(
            rows.as_mut_ptr(),
            rows.len(),
            relations.as_mut_ptr(),
            relations.len(),
            m,
            equations,
            l,
            t,
            count,
            steps,
            log.as_ptr(),
            log.len(),
            result.as_mut_ptr(),
            result.len(),
        )
    }
}

/// Three numbers in `result`: 1, N and the number of sequences, or zeros where there is no N from 0 on. From the trailing run on the
/// needed parts of the three work stores end as zeros, and on a refusal those of the list and of the result too; what is refused before it
/// (2, 1, 5, and 14 for a right side) leaves every store as it was.
///
/// ```
/// let (mut rows, relations) = (vec![0; wurgalm::row_store(1)], vec![0; wurgalm::RELATION_STORE]);
/// (rows[0], rows[1]) = (-2, 1); // (n - 2) x(n) = 0
/// let (mut rows_lent, mut relations_lent) = (vec![0; wurgalm::row_store(1)], vec![0; wurgalm::RELATION_STORE]);
/// let (mut matrix, mut list, mut result) = (vec![0; wurgalm::MATRIX_STORE], vec![0; wurgalm::LIST_STORE], [0; 3]);
/// let number = wurgalm::stores::solutions(
///     &rows, &relations, 1, 1, 0, 0, 0, &mut rows_lent, &mut relations_lent, &mut matrix, &mut list, &mut result,
/// );
/// assert_eq!((number, result), (0, [1, 2, 1])); // N is 2, and there is one sequence:
/// assert_eq!(list[..3], [0, 0, 1]); // x(0), x(1), x(2)
/// ```
#[allow(clippy::too_many_arguments)]
pub fn solutions(
    rows: &[i64],
    relations: &[i64],
    m: usize,
    equations: usize,
    l: i64,
    t: i64,
    count: usize,
    work_rows: &mut [i64],
    work_relations: &mut [i64],
    work_matrix: &mut [i64],
    list: &mut [i64],
    result: &mut [i64],
) -> u8 {
    // SAFETY: as above; `rows` and `relations` are only read.
    unsafe {
        symbols::wurgalm_solutions(
            rows.as_ptr(),
            rows.len(),
            relations.as_ptr(),
            relations.len(),
            m,
            equations,
            l,
            t,
            count,
            work_rows.as_mut_ptr(),
            work_rows.len(),
            work_relations.as_mut_ptr(),
            work_relations.len(),
            work_matrix.as_mut_ptr(),
            work_matrix.len(),
            list.as_mut_ptr(),
            list.len(),
            result.as_mut_ptr(),
            result.len(),
        )
    }
}

/// One number in `result`: the length of the output. An output store that is too short is refused with all of it zero.
///
/// ```
/// let (mut output, mut result) = ([0; 100], [0]);
/// assert_eq!(wurgalm::stores::batch(b"0\n", &mut output, &mut result), 0);
/// assert_eq!(output[..result[0] as usize], *b"0 0\n".repeat(8)); // no sheet of any client
/// assert_eq!(wurgalm::stores::batch(b"0\n", &mut output[..31], &mut result), 1);
/// ```
pub fn batch(input: &[u8], output: &mut [u8], result: &mut [i64]) -> u8 {
    // SAFETY: as above; `input` is only read.
    unsafe {
        symbols::wurgalm_batch(
            input.as_ptr(),
            input.len(),
            output.as_mut_ptr(),
            output.len(),
            result.as_mut_ptr(),
            result.len(),
        )
    }
}
