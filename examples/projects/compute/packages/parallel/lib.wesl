// Operations of a whole workgroup. Each is called by all its invocations, in uniform control flow, with the index of the
// invocation as `lane`.
@publish import self::fold::{folded, combined, neutral};
@publish import self::scan::{exclusive_sum, inclusive_sum};
@publish import self::bins::{clear_bins, count_in, bin_total, BINS};
@publish import self::config::{block, Value};
