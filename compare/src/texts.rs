//! The table of texts: good and spoiled books, each with the answer worked by
//! hand. Where nothing else is said, a spoiled text is the small book of
//! `building` with one line changed: 3 concepts, 2 roles, 2 units.

use crate::building::{
    Chance, Expected, Sample, book, followed_by, grades, largest, lines, lists, models, preceded_by, refused, settles,
    small, small_start, small_with, small_with_before, with_last_byte, with_line_ends, without_last_byte,
    without_sentences,
};

/// The number of the label that holds every model.
const ALL: u64 = 18_446_744_073_709_551_615;

/// The whole table: the texts for models, then those for grades.
pub fn table() -> Vec<Sample> {
    let parts = [spoiled_lines(), spoiled_values(), limits(), good_books(), texts_for_grades()];
    parts.into_iter().flatten().collect()
}

/// The texts for models with lines that are not as they should be.
fn spoiled_lines() -> Vec<Sample> {
    let groups = [
        missing_lines(),
        misplaced_lines(),
        line_ends(),
        tabs_and_double_spaces(),
        spaces_at_the_ends(),
        other_spaces(),
        leading_zeros(),
        signs(),
        strange_digits(),
        very_long_numbers(),
        null_bytes(),
        bytes_outside_ascii(),
        spoiled_headers(),
        columns(),
        empty_lines(),
        text_after_the_end(),
    ];
    groups.into_iter().flatten().collect()
}

/// The texts for models with sizes, forms, names and labels at and past their limits.
fn spoiled_values() -> Vec<Sample> {
    let groups = [
        sizes_at_their_limits(),
        sizes_past_their_limits(),
        forms(),
        unused_names(),
        names_without_range(),
        concepts_out_of_range(),
        roles_and_units_out_of_range(),
        names_at_sixteen_bits(),
        labels_of_models(),
        two_faults_in_one_line(),
        faults_in_two_lines(),
    ];
    groups.into_iter().flatten().collect()
}

/// The texts for models at and past the limits of the memory set aside.
fn limits() -> Vec<Sample> {
    let groups = [full_books(), full_boards(), overfull_boards(), long_listings(), long_inputs()];
    groups.into_iter().flatten().collect()
}

/// The texts for models that show what the sentences bring.
fn good_books() -> Vec<Sample> {
    let groups = [
        worked_examples(),
        single_forms(),
        forms_with_links(),
        top(),
        several_rounds(),
        joined_labels(),
        odd_books(),
        large_books(),
        scattered_for_models(),
    ];
    groups.into_iter().flatten().collect()
}

/// The texts for grades.
fn texts_for_grades() -> Vec<Sample> {
    let groups = [
        labels_of_grades(),
        two_faults_in_grades(),
        reading_in_grades(),
        limits_in_grades(),
        lengths_in_grades(),
        examples_in_grades(),
        rules_in_grades(),
        large_books_in_grades(),
        scattered_for_grades(),
    ];
    groups.into_iter().flatten().collect()
}

/// Texts that end too early.
fn missing_lines() -> Vec<Sample> {
    let last_cut = without_last_byte(small());
    vec![
        models("empty_input", Vec::new(), refused(11, 1)),
        models("single_line_feed", b"\n".to_vec(), refused(11, 1)),
        models("three_line_feeds", b"\n\n\n".to_vec(), refused(11, 1)),
        models("only_first_header", small_start(1), refused(11, 2)),
        models("only_header_and_sizes", small_start(2), refused(11, 3)),
        models("no_sentence", small_start(3), lists(&[(1, 1, ALL), (2, 2, ALL)])),
        models("small_book", small(), lists(&[(1, 1, ALL), (1, 2, 5), (2, 2, ALL), (3, 1, 3), (3, 2, 1)])),
        models("first_header_without_line_end", without_last_byte(small_start(1)), refused(11, 1)),
        models("sizes_without_line_end", without_last_byte(small_start(2)), refused(11, 2)),
        models("second_header_without_line_end", without_last_byte(small_start(3)), refused(11, 3)),
        models("last_sentence_without_line_end", last_cut.clone(), refused(11, 5)),
        models("last_sentence_cut_short", without_last_byte(last_cut), refused(11, 5)),
    ]
}

/// Texts with a line too few, too many or in a wrong place.
fn misplaced_lines() -> Vec<Sample> {
    let first = "concepts roles units";
    let second = "form first second role third label";
    let sentence = "1 1 0 0 2 5";
    vec![
        models("both_headers_without_sizes", lines([first, second]), refused(11, 2)),
        models("first_header_missing", lines(["3 2 2", second, sentence]), refused(11, 1)),
        models("second_header_missing", lines([first, "3 2 2", sentence]), refused(11, 3)),
        models("sentence_before_second_header", lines([first, "3 2 2", sentence, second]), refused(11, 3)),
        models("headers_swapped", lines([second, "3 2 2", first, sentence]), refused(11, 1)),
        models("first_header_twice", small_with_before(2, first), refused(11, 2)),
        models("sizes_twice", small_with_before(3, "3 2 2"), refused(11, 3)),
        models("second_header_twice", small_with_before(4, second), refused(11, 4)),
        models("remark_at_the_start", small_with_before(1, "# a book"), refused(11, 1)),
        models("remark_among_the_sentences", small_with_before(5, "# a unit"), refused(11, 5)),
    ]
}

/// Texts with carriage returns.
fn line_ends() -> Vec<Sample> {
    let second = "form first second role third label\r";
    vec![
        models("carriage_returns_throughout", with_line_ends(small(), "\r\n"), refused(11, 1)),
        models("carriage_returns_alone", with_line_ends(small(), "\r"), refused(11, 1)),
        models("line_feeds_before_carriage_returns", with_line_ends(small(), "\n\r"), refused(11, 2)),
        models("carriage_return_in_sizes", small_with(2, "3 2 2\r"), refused(11, 2)),
        models("carriage_return_in_second_header", small_with(3, second), refused(11, 3)),
        models("carriage_return_in_last_line", small_with(5, "5 0 0 0 1 3\r"), refused(11, 5)),
        models("carriage_return_for_last_line_end", with_last_byte(small(), b'\r'), refused(11, 5)),
    ]
}

/// Texts with a tab for a space, or with two spaces.
fn tabs_and_double_spaces() -> Vec<Sample> {
    let tab_in_second = "form first second role third\tlabel";
    let double_in_second = "form first  second role third label";
    vec![
        models("tab_in_first_header", small_with(1, "concepts\troles units"), refused(11, 1)),
        models("tab_in_sizes", small_with(2, "3 2\t2"), refused(11, 2)),
        models("tab_in_second_header", small_with(3, tab_in_second), refused(11, 3)),
        models("tab_in_sentence", small_with(5, "5 0 0\t0 1 3"), refused(11, 5)),
        models("double_space_in_first_header", small_with(1, "concepts roles  units"), refused(11, 1)),
        models("double_space_in_sizes", small_with(2, "3  2 2"), refused(11, 2)),
        models("double_space_in_second_header", small_with(3, double_in_second), refused(11, 3)),
        models("double_space_in_sentence", small_with(5, "5 0 0 0  1 3"), refused(11, 5)),
        models("double_space_for_a_name", small_with(5, "5 0 0  1 3"), refused(11, 5)),
    ]
}

/// Texts with a space before or after a line.
fn spaces_at_the_ends() -> Vec<Sample> {
    let leading_in_second = " form first second role third label";
    let trailing_in_second = "form first second role third label ";
    vec![
        models("leading_space_in_first_header", small_with(1, " concepts roles units"), refused(11, 1)),
        models("leading_space_in_sizes", small_with(2, " 3 2 2"), refused(11, 2)),
        models("leading_space_in_second_header", small_with(3, leading_in_second), refused(11, 3)),
        models("leading_space_in_sentence", small_with(4, " 1 1 0 0 2 5"), refused(11, 4)),
        models("trailing_space_in_first_header", small_with(1, "concepts roles units "), refused(11, 1)),
        models("trailing_space_in_sizes", small_with(2, "3 2 2 "), refused(11, 2)),
        models("trailing_space_in_second_header", small_with(3, trailing_in_second), refused(11, 3)),
        models("trailing_space_in_sentence", small_with(4, "1 1 0 0 2 5 "), refused(11, 4)),
        models("trailing_space_in_last_line", small_with(5, "5 0 0 0 1 3 "), refused(11, 5)),
    ]
}

/// Texts with other bytes that show as a gap.
fn other_spaces() -> Vec<Sample> {
    vec![
        models("line_of_one_space", small_with(4, " "), refused(11, 4)),
        models("line_of_five_spaces", small_with(4, "     "), refused(11, 4)),
        models("sizes_of_two_spaces", small_with(2, "  "), refused(11, 2)),
        models("vertical_tab_in_sentence", small_with(5, "5 0 0 0 1\x0b3"), refused(11, 5)),
        models("form_feed_after_sentence", small_with(5, "5 0 0 0 1 3\x0c"), refused(11, 5)),
        models("comma_between_names", small_with(5, "5 0,0 0 1 3"), refused(11, 5)),
        models("commas_throughout_the_sizes", small_with(2, "3,2,2"), refused(11, 2)),
    ]
}

/// Texts with a leading zero.
fn leading_zeros() -> Vec<Sample> {
    vec![
        models("leading_zero_in_size", small_with(2, "03 2 2"), refused(11, 2)),
        models("leading_zero_in_last_size", small_with(2, "3 2 02"), refused(11, 2)),
        models("leading_zero_in_form", small_with(5, "05 0 0 0 1 3"), refused(11, 5)),
        models("leading_zero_in_name", small_with(5, "5 0 0 0 01 3"), refused(11, 5)),
        models("leading_zero_in_label", small_with(5, "5 0 0 0 1 03"), refused(11, 5)),
        models("double_zero_for_a_size", small_with(2, "3 00 2"), refused(11, 2)),
        models("double_zero_for_a_form", small_with(5, "00 0 0 0 1 3"), refused(11, 5)),
        models("double_zero_for_a_name", small_with(5, "5 00 0 0 1 3"), refused(11, 5)),
        models("double_zero_for_a_label", small_with(5, "5 0 0 0 1 00"), refused(11, 5)),
    ]
}

/// Texts with a sign before a number.
fn signs() -> Vec<Sample> {
    vec![
        models("plus_before_a_size", small_with(2, "+3 2 2"), refused(11, 2)),
        models("plus_before_a_form", small_with(5, "+5 0 0 0 1 3"), refused(11, 5)),
        models("plus_before_a_name", small_with(5, "5 0 0 0 +1 3"), refused(11, 5)),
        models("plus_before_a_label", small_with(5, "5 0 0 0 1 +3"), refused(11, 5)),
        models("minus_before_a_size", small_with(2, "3 -2 2"), refused(11, 2)),
        models("minus_before_a_zero_name", small_with(5, "5 -0 0 0 1 3"), refused(11, 5)),
        models("minus_before_a_label", small_with(5, "5 0 0 0 1 -3"), refused(11, 5)),
        models("minus_alone_for_a_label", small_with(5, "5 0 0 0 1 -"), refused(11, 5)),
    ]
}

/// Texts with values that are not plain decimal numbers.
fn strange_digits() -> Vec<Sample> {
    vec![
        models("letter_after_a_digit", small_with(5, "5 0 0 0 1 3x"), refused(11, 5)),
        models("letter_for_a_size", small_with(2, "3 b 2"), refused(11, 2)),
        models("hexadecimal_label", small_with(5, "5 0 0 0 1 0x3"), refused(11, 5)),
        models("label_with_decimal_point", small_with(5, "5 0 0 0 1 3.0"), refused(11, 5)),
        models("label_with_exponent", small_with(5, "5 0 0 0 1 3e0"), refused(11, 5)),
        models("label_with_comma_for_thousands", small_with(5, "5 0 0 0 1 1,000"), refused(11, 5)),
        models("word_for_a_label", small_with(5, "5 0 0 0 1 all"), refused(11, 5)),
        models("byte_just_below_the_digits", small_with(5, "5 0 0 0 1 /"), refused(11, 5)),
        models("byte_just_above_the_digits", small_with(5, "5 0 0 0 1 :"), refused(11, 5)),
    ]
}

/// Texts with a number of a thousand digits.
fn very_long_numbers() -> Vec<Sample> {
    let nines = "9".repeat(1000);
    let zeros = "0".repeat(999);
    let in_size = format!("3 {nines} 2");
    let in_form = format!("{nines} 0 0 0 1 3");
    let in_name = format!("5 0 {nines} 0 1 3");
    let in_label = format!("5 0 0 0 1 {nines}");
    let zeros_in_label = format!("5 0 0 0 1 {zeros}3");
    let round_label = format!("5 0 0 0 1 1{zeros}");
    vec![
        models("size_of_a_thousand_digits", small_with(2, in_size), refused(11, 2)),
        models("form_of_a_thousand_digits", small_with(5, in_form), refused(11, 5)),
        models("name_of_a_thousand_digits", small_with(5, in_name), refused(11, 5)),
        models("label_of_a_thousand_digits", small_with(5, in_label), refused(11, 5)),
        models("label_of_a_thousand_zeros_and_three", small_with(5, zeros_in_label), refused(11, 5)),
        models("label_of_one_and_a_thousand_zeros", small_with(5, round_label), refused(11, 5)),
    ]
}

/// Texts with the byte 0.
fn null_bytes() -> Vec<Sample> {
    vec![
        models("null_in_first_header", small_with(1, "concepts roles units\0"), refused(11, 1)),
        models("null_for_a_space_in_sizes", small_with(2, "3\x002 2"), refused(11, 2)),
        models("null_in_sentence", small_with(5, "5 0 0 0 1 3\0"), refused(11, 5)),
        models("null_for_a_name", small_with(5, "5 0 \0 0 1 3"), refused(11, 5)),
        models("null_for_last_line_end", with_last_byte(small(), 0), refused(11, 5)),
        models("null_at_the_end", followed_by(small(), b"\0"), refused(11, 6)),
        models("null_alone", b"\0".to_vec(), refused(11, 1)),
    ]
}

/// Texts with bytes above 127.
fn bytes_outside_ascii() -> Vec<Sample> {
    let mark = b"\xef\xbb\xbf";
    let lone = b"5 0 0 0 1 3\xff";
    let high_bit = b"5 0 0 0 1 \xb3";
    vec![
        models("accent_in_first_header", small_with(1, "concépts roles units"), refused(11, 1)),
        models("accent_in_sentence", small_with(5, "5 0 0 0 1 é"), refused(11, 5)),
        models("arabic_digit_in_label", small_with(5, "5 0 0 0 1 ٣"), refused(11, 5)),
        models("non_breaking_space_in_sentence", small_with(5, "5 0 0 0\u{a0}1 3"), refused(11, 5)),
        models("lone_byte_255_in_sentence", small_with(5, lone), refused(11, 5)),
        models("digit_with_its_high_bit_set", small_with(5, high_bit), refused(11, 5)),
        models("byte_255_alone", vec![255], refused(11, 1)),
        models("byte_order_mark_at_the_start", preceded_by(mark, small()), refused(11, 1)),
    ]
}

/// Texts with a header that is not as it should be.
fn spoiled_headers() -> Vec<Sample> {
    let upper = "FORM FIRST SECOND ROLE THIRD LABEL";
    let misspelt = "form first second role third lable";
    let swapped = "form first second third role label";
    let short = "form first second role third";
    let long = "form first second role third label mark";
    vec![
        models("upper_case_first_header", small_with(1, "CONCEPTS ROLES UNITS"), refused(11, 1)),
        models("capital_in_first_header", small_with(1, "Concepts roles units"), refused(11, 1)),
        models("misspelt_first_header", small_with(1, "concept roles units"), refused(11, 1)),
        models("swapped_columns_in_first_header", small_with(1, "roles concepts units"), refused(11, 1)),
        models("short_first_header", small_with(1, "concepts roles"), refused(11, 1)),
        models("long_first_header", small_with(1, "concepts roles units labels"), refused(11, 1)),
        models("upper_case_second_header", small_with(3, upper), refused(11, 3)),
        models("misspelt_second_header", small_with(3, misspelt), refused(11, 3)),
        models("swapped_columns_in_second_header", small_with(3, swapped), refused(11, 3)),
        models("short_second_header", small_with(3, short), refused(11, 3)),
        models("long_second_header", small_with(3, long), refused(11, 3)),
        models("empty_second_header", small_with(3, ""), refused(11, 3)),
    ]
}

/// Texts with too few or too many values in a line.
fn columns() -> Vec<Sample> {
    let two_sentences = "1 1 0 0 2 5 5 0 0 0 1 3";
    vec![
        models("one_size", small_with(2, "3"), refused(11, 2)),
        models("two_sizes", small_with(2, "3 2"), refused(11, 2)),
        models("four_sizes", small_with(2, "3 2 2 0"), refused(11, 2)),
        models("one_value_in_sentence", small_with(5, "5"), refused(11, 5)),
        models("five_values_in_sentence", small_with(5, "5 0 0 0 1"), refused(11, 5)),
        models("seven_values_in_sentence", small_with(5, "5 0 0 0 1 3 0"), refused(11, 5)),
        models("two_sentences_in_one_line", small_with(4, two_sentences), refused(11, 4)),
    ]
}

/// Texts with an empty line.
fn empty_lines() -> Vec<Sample> {
    vec![
        models("empty_line_at_the_start", small_with_before(1, ""), refused(11, 1)),
        models("empty_line_before_the_sizes", small_with_before(2, ""), refused(11, 2)),
        models("empty_line_before_second_header", small_with_before(3, ""), refused(11, 3)),
        models("empty_line_before_the_sentences", small_with_before(4, ""), refused(11, 4)),
        models("empty_line_between_sentences", small_with_before(5, ""), refused(11, 5)),
        models("empty_line_at_the_end", small_with_before(6, ""), refused(11, 6)),
        models("empty_line_after_no_sentence", followed_by(small_start(3), b"\n"), refused(11, 4)),
    ]
}

/// Texts with something after the last full line.
fn text_after_the_end() -> Vec<Sample> {
    vec![
        models("space_after_the_last_line", followed_by(small(), b" "), refused(11, 6)),
        models("space_after_no_sentence", followed_by(small_start(3), b" "), refused(11, 4)),
        models("digit_after_the_last_line", followed_by(small(), b"5"), refused(11, 6)),
        models("carriage_return_after_the_last_line", followed_by(small(), b"\r"), refused(11, 6)),
        models("end_of_file_mark_after_the_last_line", followed_by(small(), b"\x1a"), refused(11, 6)),
        models("second_book_after_the_first", followed_by(small(), &small()), refused(11, 6)),
    ]
}

/// Sizes that are just within their limits. Every node is in concept 0, and
/// every concept in itself: 2 c + n - 1 labels. The listing's header has 19
/// bytes, and the 511 lines of concepts 9 × 25 + 90 × 27 + 412 × 29 = 14,603.
fn sizes_at_their_limits() -> Vec<Sample> {
    vec![
        models("smallest_book", without_sentences("1 0 0"), settles(1, 19)),
        models("concepts_512", without_sentences("512 0 0"), settles(1_023, 14_622)),
        models("roles_32", without_sentences("1 32 0"), settles(1, 19)),
        models("units_512", without_sentences("1 0 512"), settles(513, 19)),
        models("roles_32_and_units_512", without_sentences("1 32 512"), settles(513, 19)),
        models("all_sizes_at_their_limits", without_sentences("512 32 512"), settles(1_535, 14_622)),
    ]
}

/// Sizes that are past their limits, or too large for 16 bits.
fn sizes_past_their_limits() -> Vec<Sample> {
    vec![
        models("concepts_0", small_with(2, "0 2 2"), refused(1, 2)),
        models("all_sizes_0", without_sentences("0 0 0"), refused(1, 2)),
        models("concepts_513", without_sentences("513 0 0"), refused(1, 2)),
        models("concepts_65535", without_sentences("65535 0 0"), refused(1, 2)),
        models("concepts_65536", without_sentences("65536 0 0"), refused(11, 2)),
        models("concepts_65537", without_sentences("65537 0 0"), refused(11, 2)),
        models("roles_33", without_sentences("3 33 2"), refused(1, 2)),
        models("roles_65535", without_sentences("3 65535 2"), refused(1, 2)),
        models("roles_65536", without_sentences("3 65536 2"), refused(11, 2)),
        models("units_513", without_sentences("3 2 513"), refused(1, 2)),
        models("units_65535", without_sentences("3 2 65535"), refused(1, 2)),
        models("units_65536", without_sentences("3 2 65536"), refused(11, 2)),
        models("all_sizes_past_by_one", without_sentences("513 33 513"), refused(1, 2)),
        models("size_past_64_bits", without_sentences("18446744073709551619 2 2"), refused(11, 2)),
    ]
}

/// Forms that there are not.
fn forms() -> Vec<Sample> {
    vec![
        models("form_0", small_with(5, "0 0 0 0 0 3"), refused(2, 5)),
        models("form_7", small_with(5, "7 0 0 0 0 3"), refused(2, 5)),
        models("form_255", small_with(5, "255 0 0 0 0 3"), refused(2, 5)),
        models("form_256", small_with(5, "256 0 0 0 0 3"), refused(11, 5)),
        models("form_257", small_with(5, "257 1 0 0 2 3"), refused(11, 5)),
    ]
}

/// Sentences with a name that their form does not use.
fn unused_names() -> Vec<Sample> {
    vec![
        models("form_1_with_a_second", small_with(5, "1 1 1 0 2 5"), refused(2, 5)),
        models("form_1_with_a_role", small_with(5, "1 1 0 1 2 5"), refused(2, 5)),
        models("form_2_with_a_role", small_with(5, "2 1 2 1 2 5"), refused(2, 5)),
        models("form_3_with_a_second", small_with(5, "3 1 1 0 2 5"), refused(2, 5)),
        models("form_4_with_a_second", small_with(5, "4 1 1 0 2 5"), refused(2, 5)),
        models("form_5_with_a_second", small_with(5, "5 1 1 0 2 5"), refused(2, 5)),
        models("form_5_with_a_role", small_with(5, "5 1 0 1 2 5"), refused(2, 5)),
        models("form_6_with_a_second", small_with(5, "6 1 1 0 1 5"), refused(2, 5)),
    ]
}

/// Sentences with a role or a unit where the book has none.
fn names_without_range() -> Vec<Sample> {
    vec![
        models("form_3_where_there_are_no_roles", book("3 0 2", ["3 1 0 0 2 5"]), refused(2, 4)),
        models("form_4_where_there_are_no_roles", book("3 0 2", ["4 1 0 0 2 5"]), refused(2, 4)),
        models("form_6_where_there_are_no_roles", book("3 0 2", ["6 0 0 0 1 5"]), refused(2, 4)),
        models("form_5_where_there_are_no_units", book("3 2 0", ["5 0 0 0 1 5"]), refused(2, 4)),
        models("form_6_where_there_are_no_units", book("3 2 0", ["6 0 0 0 0 5"]), refused(2, 4)),
    ]
}

/// Sentences with a concept out of range by one.
fn concepts_out_of_range() -> Vec<Sample> {
    vec![
        models("first_concept_past_by_one_in_form_1", small_with(5, "1 3 0 0 2 5"), refused(2, 5)),
        models("first_concept_past_by_one_in_form_2", small_with(5, "2 3 1 0 2 5"), refused(2, 5)),
        models("first_concept_past_by_one_in_form_3", small_with(5, "3 3 0 0 2 5"), refused(2, 5)),
        models("first_concept_past_by_one_in_form_4", small_with(5, "4 3 0 0 2 5"), refused(2, 5)),
        models("second_concept_past_by_one", small_with(5, "2 1 3 0 2 5"), refused(2, 5)),
        models("third_concept_past_by_one_in_form_1", small_with(5, "1 1 0 0 3 5"), refused(2, 5)),
        models("third_concept_past_by_one_in_form_2", small_with(5, "2 1 2 0 3 5"), refused(2, 5)),
        models("third_concept_past_by_one_in_form_3", small_with(5, "3 1 0 0 3 5"), refused(2, 5)),
        models("third_concept_past_by_one_in_form_4", small_with(5, "4 1 0 0 3 5"), refused(2, 5)),
        models("third_concept_past_by_one_in_form_5", small_with(5, "5 1 0 0 3 5"), refused(2, 5)),
        models("node_of_a_unit_for_a_concept", small_with(5, "3 1 0 0 4 5"), refused(2, 5)),
        models("concept_among_more_units", book("2 1 9", ["1 2 0 0 1 5"]), refused(2, 4)),
    ]
}

/// Sentences with a role or a unit out of range by one.
fn roles_and_units_out_of_range() -> Vec<Sample> {
    vec![
        models("role_past_by_one_in_form_3", small_with(5, "3 1 0 2 2 5"), refused(2, 5)),
        models("role_past_by_one_in_form_4", small_with(5, "4 1 0 2 2 5"), refused(2, 5)),
        models("role_past_by_one_in_form_6", small_with(5, "6 1 0 2 1 5"), refused(2, 5)),
        models("unit_past_by_one_in_form_5", small_with(5, "5 2 0 0 1 5"), refused(2, 5)),
        models("first_unit_past_by_one_in_form_6", small_with(5, "6 2 0 0 1 5"), refused(2, 5)),
        models("third_unit_past_by_one_in_form_6", small_with(5, "6 1 0 0 2 5"), refused(2, 5)),
        models("node_for_a_unit", small_with(5, "5 3 0 0 1 5"), refused(2, 5)),
    ]
}

/// Names that are just within 16 bits, and just past them.
fn names_at_sixteen_bits() -> Vec<Sample> {
    vec![
        models("first_65535", small_with(5, "1 65535 0 0 2 5"), refused(2, 5)),
        models("first_65536", small_with(5, "1 65536 0 0 2 5"), refused(11, 5)),
        models("second_65535", small_with(5, "2 1 65535 0 2 5"), refused(2, 5)),
        models("second_65536", small_with(5, "2 1 65536 0 2 5"), refused(11, 5)),
        models("role_65535", small_with(5, "3 1 0 65535 2 5"), refused(2, 5)),
        models("role_65536", small_with(5, "3 1 0 65536 2 5"), refused(11, 5)),
        models("third_65535", small_with(5, "1 1 0 0 65535 5"), refused(2, 5)),
        models("third_65536", small_with(5, "1 1 0 0 65536 5"), refused(11, 5)),
        models("unused_second_65536", small_with(5, "1 1 65536 0 2 5"), refused(11, 5)),
        models("unit_65536", small_with(5, "5 65536 0 0 1 5"), refused(11, 5)),
    ]
}

/// Labels of models, up to 64 bits and past them.
fn labels_of_models() -> Vec<Sample> {
    let labelled = |label: &str| book("3 0 0", [format!("1 1 0 0 2 {label}")]);
    let listed = |label| lists(&[(1, 1, ALL), (1, 2, label), (2, 2, ALL)]);
    let last_model = labelled("9223372036854775808");
    vec![
        models("label_0", labelled("0"), lists(&[(1, 1, ALL), (2, 2, ALL)])),
        models("label_1", labelled("1"), listed(1)),
        models("label_16_in_models", labelled("16"), listed(16)),
        models("label_of_the_last_model", last_model, listed(9_223_372_036_854_775_808)),
        models("label_one_below_64_bits", labelled("18446744073709551614"), listed(ALL - 1)),
        models("label_at_64_bits", labelled("18446744073709551615"), listed(ALL)),
        models("label_past_64_bits", labelled("18446744073709551616"), refused(11, 4)),
        models("label_past_64_bits_in_its_last_digit_but_one", labelled("18446744073709551620"), refused(11, 4)),
        models("label_of_twenty_nines", labelled("99999999999999999999"), refused(11, 4)),
        models("label_of_twenty_one_digits", labelled("100000000000000000000"), refused(11, 4)),
        models("label_at_128_bits", labelled("340282366920938463463374607431768211455"), refused(11, 4)),
    ]
}

/// The text of a book of so many equal sentences, and then this.
fn many_sentences(count: usize, end: &[u8]) -> Vec<u8> {
    followed_by(book("3 2 2", vec!["1 1 0 0 2 5"; count]), end)
}

/// Books at and past 512 sentences. The line of sentence 513 is line 516.
fn full_books() -> Vec<Sample> {
    let listed = lists(&[(1, 1, ALL), (1, 2, 5), (2, 2, ALL)]);
    let malformed_next = b"1 1 0 0 2 5\nnonsense\n";
    vec![
        models("sentences_512", many_sentences(512, b""), listed),
        models("sentences_513", many_sentences(513, b""), refused(4, 516)),
        models("sentence_513_labelled_none", many_sentences(512, b"1 1 0 0 2 0\n"), refused(4, 516)),
        models("sentence_513_malformed", many_sentences(512, b"1 1 0 0 2 05\n"), refused(11, 516)),
        models("sentence_513_of_form_0", many_sentences(512, b"0 1 0 0 2 5\n"), refused(2, 516)),
        models("sentence_513_out_of_range", many_sentences(512, b"1 1 0 0 3 5\n"), refused(2, 516)),
        models("sentence_513_without_line_end", many_sentences(512, b"1 1 0 0 2 5"), refused(11, 516)),
        models("sentence_514_malformed", many_sentences(512, malformed_next), refused(4, 516)),
        models("space_after_sentence_512", many_sentences(512, b" "), refused(11, 516)),
        models("empty_line_after_sentence_512", many_sentences(512, b"\n"), refused(11, 516)),
        models("sentence_512_ill_formed", many_sentences(511, b"7 0 0 0 0 5\n"), refused(2, 515)),
    ]
}

/// A book in which each node has four labels: it is in concept 0 and in concept
/// 1, and has a link to each of the two. Then come these sentences.
fn four_labels_a_node(units: usize, more: &[&str]) -> Vec<u8> {
    let first = ["1 0 0 0 1 1", "3 0 0 0 0 1", "3 0 0 0 1 1"];
    book(&format!("2 1 {units}"), [&first, more].concat())
}

/// A book of 32 concepts, 1 role and 32 units in which each of the 64 nodes is
/// in each of the 32 concepts: 2,048 labels. Then come these sentences.
fn every_membership(more: &[&str]) -> Vec<u8> {
    let mut sentences: Vec<String> = (1..32).map(|third| format!("1 0 0 0 {third} 1")).collect();
    sentences.extend(more.iter().map(|sentence| String::from(*sentence)));
    book("32 1 32", sentences)
}

/// A book of 513 nodes, each with two links and in concept 0, and concept 1 in
/// itself: 1,540 labels. Then so many units are in concept 1: so many more.
fn units_in_one_concept(count: usize) -> Vec<u8> {
    let mut sentences = vec![String::from("3 0 0 0 0 1"), String::from("3 0 0 0 1 1")];
    sentences.extend((0..count).map(|unit| format!("5 {unit} 0 0 1 1")));
    book("2 1 511", sentences)
}

/// Boards with no entry left. Four labels a node: 512 nodes have 2,048, and the
/// listing has 512 lines of 5 bytes and 10 + 180 + 1,236 digits of nodes, with
/// 19 digits more at node 1. Every membership: 64 × 31 lines of 4 bytes, 118 × 31
/// digits of nodes, 53 × 64 of concepts, and 19 more at 31 nodes. Units in one
/// concept: a line of 25 bytes, 508 lines of 5 and 1,418 digits of nodes.
fn full_boards() -> Vec<Sample> {
    let wider = four_labels_a_node(510, &["1 0 0 0 1 2", "6 0 0 0 0 0"]);
    let unlabelled = every_membership(&["6 0 0 0 0 0"]);
    vec![
        models("board_full_of_links_and_memberships", four_labels_a_node(510, &[]), settles(2_048, 4_024)),
        models("board_full_and_then_wider_labels", wider, settles(2_048, 4_024)),
        models("board_full_of_memberships", every_membership(&[]), settles(2_048, 15_594)),
        models("board_full_and_then_label_none", unlabelled, settles(2_048, 15_594)),
        models("board_one_membership_short_of_full", units_in_one_concept(507), settles(2_047, 3_994)),
        models("board_full_by_its_last_membership", units_in_one_concept(508), settles(2_048, 4_002)),
    ]
}

/// Boards that need one entry or more than there are.
fn overfull_boards() -> Vec<Sample> {
    let one_link = four_labels_a_node(510, &["6 0 0 0 0 1"]);
    let one_node = four_labels_a_node(511, &[]);
    let long_listing = book("512 0 512", ["1 0 0 0 1 1", "1 0 0 0 2 1"]);
    let everything = book("512 32 512", (1..512).map(|third| format!("3 0 0 31 {third} 1")));
    vec![
        models("board_one_link_too_many", one_link, refused(8, 0)),
        models("board_one_node_too_many", one_node, refused(8, 0)),
        models("board_one_link_past_the_memberships", every_membership(&["6 31 0 0 31 1"]), refused(8, 0)),
        models("board_one_membership_too_many", units_in_one_concept(509), refused(8, 0)),
        models("board_overfull_and_listing_too_long", long_listing, refused(8, 0)),
        models("board_overfull_by_far", everything, refused(8, 0)),
    ]
}

/// A book of 512 concepts whose 61 units are in concept 100: sixty with the
/// largest label and the last with this one. The concepts have 14,622 bytes with
/// the header, and each unit's line has 9 bytes and the digits of its label.
fn long_listing(last_label: &str) -> Vec<u8> {
    let mut sentences: Vec<String> = (0..60).map(|unit| format!("5 {unit} 0 0 100 {ALL}")).collect();
    sentences.push(format!("5 60 0 0 100 {last_label}"));
    book("512 0 61", sentences)
}

/// Listings at 16,384 bytes and past them: 14,622 + 60 × 29 + 9 + 13.
fn long_listings() -> Vec<Sample> {
    let exact = long_listing("1000000000000");
    let short = long_listing("999999999999");
    let long = long_listing("10000000000000");
    let every_label_wide: Vec<String> = (1..32).map(|third| format!("1 0 0 0 {third} {ALL}")).collect();
    vec![
        models("listing_of_16383_bytes", short, settles(1_145, 16_383)),
        models("listing_of_16384_bytes", exact, settles(1_145, 16_384)),
        models("listing_of_16385_bytes", long, refused(9, 0)),
        models("listing_too_long_by_far", book("32 0 32", every_label_wide), refused(9, 0)),
    ]
}

/// A text of 64 bytes of header and 510 lines of 32 bytes, all with the largest
/// label: 16,384 bytes. The last line is this one instead.
fn long_input(last_line: &str) -> Vec<u8> {
    let sentence = |number: usize| format!("5 {} 0 0 1 {ALL}", 10 + number % 90);
    let mut sentences: Vec<String> = (0..509).map(sentence).collect();
    sentences.push(String::from(last_line));
    book("2 0 101", sentences)
}

/// Inputs at 16,384 bytes and past them. Ninety units are in concept 1: with
/// the 103 nodes in concept 0 and concept 1 in itself, 194 labels. Their lines
/// have 26 bytes for nodes up to 99 and 27 for nodes 100 and 101.
fn long_inputs() -> Vec<Sample> {
    let exact = long_input("5 99 0 0 1 18446744073709551615");
    let long = long_input("5 100 0 0 1 18446744073709551615");
    let bad_start = preceded_by(b"C", long[1..].to_vec());
    let bad_end = with_last_byte(exact.clone(), b' ');
    let bad_label = long_input("5 99 0 0 1 18446744073709551616");
    let followed_by_space = followed_by(exact.clone(), b" ");
    vec![
        models("input_of_16384_bytes", exact, settles(194, 19 + 25 + 88 * 26 + 2 * 27)),
        models("input_of_16385_bytes", long, refused(9, 0)),
        models("input_of_16385_bytes_with_a_bad_first_line", bad_start, refused(9, 0)),
        models("input_of_16384_bytes_and_a_space", followed_by_space, refused(9, 0)),
        models("input_of_16384_bytes_without_last_line_end", bad_end, refused(11, 513)),
        models("input_of_16384_bytes_with_a_bad_last_label", bad_label, refused(11, 513)),
        models("letters_of_16384_bytes", vec![b'c'; 16_384], refused(11, 1)),
        models("line_feeds_of_16384_bytes", vec![b'\n'; 16_384], refused(11, 1)),
        models("line_feeds_of_16385_bytes", vec![b'\n'; 16_385], refused(9, 0)),
        models("nulls_of_40000_bytes", vec![0; 40_000], refused(9, 0)),
    ]
}

/// Texts with two faults in one line.
fn two_faults_in_one_line() -> Vec<Sample> {
    let large_label = "0 0 0 0 0 18446744073709551616";
    let cut_form = without_last_byte(small_with(5, "0 0 0 0 0 3"));
    let cut_sizes = without_last_byte(lines(["concepts roles units", "513 0 0"]));
    vec![
        models("form_0_and_label_past_64_bits", small_with(5, large_label), refused(11, 5)),
        models("form_0_and_leading_zero", small_with(5, "0 0 0 0 0 03"), refused(11, 5)),
        models("form_0_and_no_line_end", cut_form, refused(11, 5)),
        models("form_7_and_name_65536", small_with(5, "7 0 0 0 65536 3"), refused(11, 5)),
        models("form_7_and_seven_values", small_with(5, "7 0 0 0 0 3 0"), refused(11, 5)),
        models("concepts_513_and_four_sizes", without_sentences("513 0 0 0"), refused(11, 2)),
        models("concepts_0_and_roles_65536", without_sentences("0 65536 0"), refused(11, 2)),
        models("concepts_0_and_units_65536", without_sentences("0 0 65536"), refused(11, 2)),
        models("concepts_513_and_no_line_end", cut_sizes, refused(11, 2)),
        models("concepts_0_and_trailing_space", without_sentences("0 0 0 "), refused(11, 2)),
    ]
}

/// Texts with faults in two lines or more: the first bad line decides.
fn faults_in_two_lines() -> Vec<Sample> {
    let first = "concepts roles units";
    let second = "form first second role third label";
    let sentence = "1 1 0 0 2 5";
    let all_bad = lines(["Concepts roles units", "0 0 0", "form", "0 0 0 0 0 0", ""]);
    vec![
        models("ill_formed_then_malformed", book("3 2 2", ["7 0 0 0 0 5", "x"]), refused(2, 4)),
        models("malformed_then_ill_formed", book("3 2 2", ["x", "7 0 0 0 0 5"]), refused(11, 4)),
        models(
            "ill_formed_then_no_line_end",
            without_last_byte(book("3 2 2", ["0 0 0 0 0 5", sentence])),
            refused(2, 4),
        ),
        models("bad_sizes_then_bad_header", lines([first, "0 2 2", "form", sentence]), refused(1, 2)),
        models("bad_sizes_then_nothing", lines([first, "0 2 2"]), refused(1, 2)),
        models("bad_sizes_then_ill_formed", lines([first, "3 33 2", second, "7 0 0 0 0 5"]), refused(1, 2)),
        models("bad_second_header_then_ill_formed", lines([first, "3 2 2", "form", "7 0 0 0 0 5"]), refused(11, 3)),
        models("every_line_bad", all_bad, refused(11, 1)),
    ]
}

/// The sentences of the two drums: concepts worn, slipping, noisy and due for
/// service, role drives, units feed drum and punch drum.
const DRUMS: [&str; 6] = ["1 1 0 0 2 5", "2 2 3 0 4 7", "4 2 0 0 3 6", "5 0 0 0 1 3", "6 1 0 0 0 7", "5 1 0 0 2 4"];

/// The sentences of the embosser: concepts loaded, embossing and ready, role
/// has state.
const EMBOSSER: [&str; 3] = ["3 1 0 0 2 7", "4 2 0 0 3 6", "5 0 0 0 1 2"];

/// The worked examples.
fn worked_examples() -> Vec<Sample> {
    let concepts = [(1, 1, ALL), (1, 2, 5), (2, 2, ALL), (3, 3, ALL), (4, 4, ALL)];
    let mut wider = DRUMS;
    wider[2] = "4 2 0 0 3 7";
    wider[5] = "5 1 0 0 2 5";
    let drums = [&concepts[..], &[(5, 1, 3), (5, 2, 1), (6, 2, 4)]].concat();
    let wider_units = [(5, 1, 3), (5, 2, 1), (6, 2, 5), (6, 3, 1), (6, 4, 1)];
    let wider_drums = [&concepts[..], &wider_units].concat();
    let embosser = [(1, 1, ALL), (1, 3, 6), (2, 2, ALL), (3, 3, ALL), (4, 1, 2), (4, 3, 2)];
    vec![
        models("drums", book("5 1 2", DRUMS), lists(&drums)),
        models("drums_with_wider_labels", book("5 1 2", wider), lists(&wider_drums)),
        models("embosser", book("4 1 1", EMBOSSER), lists(&embosser)),
    ]
}

/// What each form brings where the book has no other sentence.
fn single_forms() -> Vec<Sample> {
    let one = (1, 1, ALL);
    let two = (2, 2, ALL);
    let three = (3, 3, ALL);
    let both = ["2 1 2 0 3 6", "5 0 0 0 1 3", "5 0 0 0 2 14"];
    let in_both = lists(&[one, two, three, (4, 1, 3), (4, 2, 14), (4, 3, 2)]);
    let elsewhere = lists(&[one, two, three, (4, 1, 3), (5, 2, 14)]);
    let apart = ["2 1 2 0 3 6", "5 0 0 0 1 3", "5 1 0 0 2 14"];
    vec![
        models("form_1_alone", book("3 0 0", ["1 1 0 0 2 5"]), lists(&[one, (1, 2, 5), two])),
        models("form_1_from_a_concept_to_itself", book("2 0 0", ["1 1 0 0 1 5"]), lists(&[one])),
        models("form_2_alone", book("4 0 0", ["2 1 2 0 3 5"]), lists(&[one, two, three])),
        models("form_2_of_one_concept_twice", book("3 0 0", ["2 1 1 0 2 6"]), lists(&[one, (1, 2, 6), two])),
        models("form_2_of_a_unit_in_both", book("4 0 1", both), in_both),
        models("form_2_of_units_in_one_each", book("4 0 2", apart), elsewhere),
        models("form_3_alone", book("3 1 0", ["3 1 0 0 2 5"]), lists(&[one, two])),
        models("form_4_alone", book("3 1 0", ["4 1 0 0 2 5"]), lists(&[one, two])),
        models("form_5_alone", book("2 0 1", ["5 0 0 0 1 9"]), lists(&[one, (2, 1, 9)])),
        models("form_6_alone", book("2 1 2", ["6 0 0 0 1 7"]), lists(&[one])),
    ]
}

/// What links bring.
fn forms_with_links() -> Vec<Sample> {
    let one = (1, 1, ALL);
    let two = (2, 2, ALL);
    let three = (3, 3, ALL);
    let some = ["3 1 0 0 2 7", "4 2 0 0 3 6"];
    let inherited = ["3 1 0 0 2 7", "1 2 0 0 3 13", "4 3 0 0 4 15"];
    let from_inherited = lists(&[one, (1, 4, 5), two, (2, 3, 13), three, (4, 4, ALL)]);
    let unit = ["6 0 0 0 1 7", "5 1 0 0 1 6", "4 1 0 0 2 12"];
    let other_role = ["6 0 0 1 1 7", "5 1 0 0 1 6", "4 1 0 0 2 12"];
    let itself = ["6 0 0 0 0 7", "5 0 0 0 1 3", "4 1 0 0 2 6"];
    let apart = ["6 0 0 0 1 1", "6 0 0 0 2 2", "5 1 0 0 1 2", "5 2 0 0 1 1", "4 1 0 0 2 3"];
    let matched = ["6 0 0 0 1 1", "6 0 0 0 2 2", "5 1 0 0 1 1", "5 2 0 0 1 2", "4 1 0 0 2 3"];
    let to_units = lists(&[one, two, (3, 2, 3), (4, 1, 1), (5, 1, 2)]);
    vec![
        models("form_3_then_form_4", book("4 1 0", some), lists(&[one, (1, 3, 6), two, three])),
        models("link_to_what_a_concept_is", book("5 1 0", inherited), from_inherited),
        models("form_6_then_form_4", book("3 1 2", unit), lists(&[one, two, (3, 2, 4), (4, 1, 6)])),
        models("link_along_another_role", book("3 2 2", other_role), lists(&[one, two, (4, 1, 6)])),
        models("unit_linked_to_itself", book("3 1 1", itself), lists(&[one, two, (3, 1, 3), (3, 2, 2)])),
        models(
            "links_on_other_models_than_memberships",
            book("3 1 3", apart),
            lists(&[one, two, (4, 1, 2), (5, 1, 1)]),
        ),
        models("links_on_the_models_of_memberships", book("3 1 3", matched), to_units),
    ]
}

/// Sentences with concept 0.
fn top() -> Vec<Sample> {
    let one = (1, 1, ALL);
    let linked = ["3 0 0 0 0 7", "4 0 0 0 1 5"];
    let linked_unit = ["6 0 0 0 1 7", "4 0 0 0 1 12"];
    vec![
        models("top_on_the_left", book("2 0 1", ["1 0 0 0 1 6"]), lists(&[(0, 1, 6), one, (2, 1, 6)])),
        models("top_on_the_right", book("2 0 1", ["1 1 0 0 0 6"]), lists(&[one])),
        models("top_on_both_sides", book("2 0 1", ["1 0 0 0 0 6"]), lists(&[one])),
        models("top_alone_on_both_sides", book("1 0 0", ["1 0 0 0 0 6"]), lists(&[])),
        models("top_in_form_2", book("3 0 0", ["2 0 1 0 2 6"]), lists(&[one, (1, 2, 6), (2, 2, ALL)])),
        models("top_twice_in_form_2", book("2 0 0", ["2 0 0 0 1 6"]), lists(&[(0, 1, 6), one])),
        models("top_linked_to_top", book("2 1 1", linked), lists(&[(0, 1, 5), one, (2, 1, 5)])),
        models("unit_linked_to_anything", book("2 1 2", linked_unit), lists(&[one, (2, 1, 4)])),
        models("unit_in_top", book("2 0 1", ["5 0 0 0 0 6"]), lists(&[one])),
    ]
}

/// A chain of 40 units, each linked to the next, the last of them in concept 1,
/// and a sentence that hands concept 1 on against the links.
fn chain_of_units() -> Vec<u8> {
    let mut sentences = vec![String::from("4 1 0 0 1 7")];
    sentences.extend((0..39).map(|unit| format!("6 {unit} 0 0 {} 13", unit + 1)));
    sentences.push(String::from("5 39 0 0 1 5"));
    book("2 1 40", sentences)
}

/// The text of a chain of four concepts and a unit: the last sentence feeds the
/// one before it, and so on up to the first.
fn chain_of_concepts(label: u8) -> Vec<u8> {
    let wide = format!("1 1 0 0 2 {label}");
    book("5 0 1", ["1 3 0 0 4 14", "1 2 0 0 3 7", &wide, "5 0 0 0 1 11"])
}

/// Books that take several rounds. The chain of units has 42 nodes in concept 0,
/// concept 1 in itself, 39 links and 40 memberships; its listing has 19 + 25
/// bytes, and 40 lines of 5 bytes with 72 digits of nodes.
fn several_rounds() -> Vec<Sample> {
    let ring = ["1 1 0 0 2 3", "1 2 0 0 3 6", "1 3 0 0 1 5"];
    let in_ring =
        [[(1, 1, ALL), (1, 2, 3), (1, 3, 2)], [(2, 1, 4), (2, 2, ALL), (2, 3, 6)], [(3, 1, 5), (3, 2, 1), (3, 3, ALL)]];
    let in_chain = [
        [(1, 1, ALL), (1, 2, 31), (1, 3, 7), (1, 4, 6)].as_slice(),
        &[(2, 2, ALL), (2, 3, 7), (2, 4, 6)],
        &[(3, 3, ALL), (3, 4, 14), (4, 4, ALL)],
        &[(5, 1, 11), (5, 2, 11), (5, 3, 3), (5, 4, 2)],
    ];
    vec![
        models("chain_fed_by_its_last_sentence", chain_of_concepts(31), lists(&in_chain.concat())),
        models("ring_of_concepts", book("4 0 0", ring), lists(&in_ring.concat())),
        models("chain_of_units_against_their_order", chain_of_units(), settles(122, 316)),
    ]
}

/// Labels that several sentences bring to one fact.
fn joined_labels() -> Vec<Sample> {
    let concepts = [(1, 1, ALL), (1, 2, 3), (2, 2, ALL)];
    let link = ["6 0 0 0 1 1", "6 0 0 0 1 2", "5 1 0 0 1 7", "4 1 0 0 2 15"];
    let linked = lists(&[(1, 1, ALL), (2, 2, ALL), (3, 2, 3), (4, 1, 7)]);
    let some = ["3 1 0 0 2 1", "3 1 0 0 2 4", "4 2 0 0 3 7"];
    let has_some = lists(&[(1, 1, ALL), (1, 3, 5), (2, 2, ALL), (3, 3, ALL)]);
    vec![
        models("two_sentences_joined", book("3 0 0", ["1 1 0 0 2 1", "1 1 0 0 2 2"]), lists(&concepts)),
        models("same_sentence_twice", book("3 0 0", ["1 1 0 0 2 3", "1 1 0 0 2 3"]), lists(&concepts)),
        models("two_sentences_joined_in_a_unit_link", book("3 1 2", link), linked),
        models("two_sentences_joined_in_a_concept_link", book("4 1 0", some), has_some),
    ]
}

/// Good books that look odd.
fn odd_books() -> Vec<Sample> {
    let one = (1, 1, ALL);
    let many_units = ["6 4 0 0 3 7", "5 3 0 0 1 5", "4 1 0 0 1 6"];
    let last_names = ["6 511 0 31 511 7", "5 511 0 0 2 5", "4 2 0 31 1 6"];
    let unlabelled = ["1 1 0 0 2 0", "3 1 0 0 2 0", "5 0 0 0 1 0", "6 0 0 0 0 0"];
    let in_last = lists(&[one, (2, 2, ALL), (514, 1, 4), (514, 2, 5)]);
    vec![
        models("units_numbered_past_the_concepts", book("2 1 5", many_units), lists(&[one, (5, 1, 5), (6, 1, 4)])),
        models("last_role_and_last_unit", book("3 32 512", last_names), in_last),
        models("sentences_labelled_none", book("3 1 1", unlabelled), lists(&[one, (2, 2, ALL)])),
    ]
}

/// The largest books. That of form 4 has no link, so nothing but the 1,535
/// labels that every book of its sizes has.
fn large_books() -> Vec<Sample> {
    vec![
        models("largest_book_of_form_4", largest(), settles(1_535, 14_622)),
        models("largest_book_of_units", largest_of_units(), refused(9, 0)),
    ]
}

/// A largest book that puts each unit into one concept: 1,535 + 512 labels.
fn largest_of_units() -> Vec<u8> {
    let sentence = |unit: usize| format!("5 {unit} 0 0 {} 15", unit % 511 + 1);
    book("512 32 512", (0..512).map(sentence))
}

/// The sizes of a book whose sentences fall by chance.
struct Scatter {
    /// The seed of its sentences.
    seed: u64,
    /// The number of concepts, more than 0.
    concepts: usize,
    /// The number of roles, more than 0.
    roles: usize,
    /// The number of units, more than 0.
    units: usize,
    /// The number of sentences.
    sentences: usize,
}

/// The text of a book of well-formed sentences of every form that fall by chance.
fn scattered(scatter: &Scatter, label: fn(&mut Chance) -> u64) -> Vec<u8> {
    let Scatter { seed, concepts, roles, units, sentences } = *scatter;
    let mut chance = Chance::from_seed(seed);
    let mut sentence = || {
        let form = 1 + chance.below(6);
        let first = chance.below(if form < 5 { concepts } else { units });
        let second = if form == 2 { chance.below(concepts) } else { 0 };
        let role = if [3, 4, 6].contains(&form) { chance.below(roles) } else { 0 };
        let third = chance.below(if form < 6 { concepts } else { units });
        format!("{form} {first} {second} {role} {third} {}", label(&mut chance))
    };
    let sentences: Vec<String> = (0..sentences).map(|_| sentence()).collect();
    book(&format!("{concepts} {roles} {units}"), sentences)
}

/// The sizes of all books whose sentences fall by chance.
const SCATTERS: [Scatter; 8] = [
    Scatter { seed: 1, concepts: 4, roles: 1, units: 3, sentences: 12 },
    Scatter { seed: 2, concepts: 6, roles: 2, units: 4, sentences: 20 },
    Scatter { seed: 3, concepts: 8, roles: 2, units: 8, sentences: 40 },
    Scatter { seed: 4, concepts: 12, roles: 3, units: 12, sentences: 60 },
    Scatter { seed: 5, concepts: 20, roles: 2, units: 6, sentences: 80 },
    Scatter { seed: 6, concepts: 5, roles: 3, units: 20, sentences: 70 },
    Scatter { seed: 7, concepts: 24, roles: 1, units: 10, sentences: 50 },
    Scatter { seed: 8, concepts: 16, roles: 4, units: 5, sentences: 100 },
];

/// The names and texts of books whose sentences fall by chance, in models.
pub fn scattered_books_for_models() -> Vec<(&'static str, Vec<u8>)> {
    let names = [
        "scattered_models_one",
        "scattered_models_two",
        "scattered_models_three",
        "scattered_models_four",
        "scattered_models_five",
        "scattered_models_six",
        "scattered_models_seven",
        "scattered_models_eight",
    ];
    let texts = SCATTERS.iter().map(|scatter| scattered(scatter, Chance::next_number));
    names.into_iter().zip(texts).collect()
}

/// The names and texts of books whose sentences fall by chance, in grades.
pub fn scattered_books_for_grades() -> Vec<(&'static str, Vec<u8>)> {
    let names = [
        "scattered_grades_one",
        "scattered_grades_two",
        "scattered_grades_three",
        "scattered_grades_four",
        "scattered_grades_five",
        "scattered_grades_six",
        "scattered_grades_seven",
        "scattered_grades_eight",
    ];
    let grade = |chance: &mut Chance| chance.below(16) as u64;
    let texts = SCATTERS.iter().map(|scatter| scattered(scatter, grade));
    names.into_iter().zip(texts).collect()
}

/// The books whose sentences fall by chance, as texts for models.
fn scattered_for_models() -> Vec<Sample> {
    let texts = scattered_books_for_models().into_iter();
    texts.map(|(name, bytes)| models(name, bytes, Expected::Unworked)).collect()
}

/// The books whose sentences fall by chance, as texts for grades.
fn scattered_for_grades() -> Vec<Sample> {
    let texts = scattered_books_for_grades().into_iter();
    texts.map(|(name, bytes)| grades(name, bytes, Expected::Unworked)).collect()
}

/// Labels of grades, up to 15 and past it.
fn labels_of_grades() -> Vec<Sample> {
    let labelled = |label: &str| book("3 0 0", [format!("1 1 0 0 2 {label}")]);
    let listed = |label| lists(&[(1, 1, 15), (1, 2, label), (2, 2, 15)]);
    vec![
        grades("grade_0", labelled("0"), lists(&[(1, 1, 15), (2, 2, 15)])),
        grades("grade_1", labelled("1"), listed(1)),
        grades("grade_15", labelled("15"), listed(15)),
        grades("grade_16", labelled("16"), refused(3, 4)),
        grades("grade_256", labelled("256"), refused(3, 4)),
        grades("grade_at_64_bits", labelled("18446744073709551615"), refused(3, 4)),
        grades("grade_past_64_bits", labelled("18446744073709551616"), refused(11, 4)),
        grades("grade_with_leading_zero", labelled("015"), refused(11, 4)),
        grades("grade_of_a_thousand_digits", labelled(&"1".repeat(1000)), refused(11, 4)),
    ]
}

/// Texts for grades with two faults.
fn two_faults_in_grades() -> Vec<Sample> {
    let cut = without_last_byte(small_with(5, "5 0 0 0 1 16"));
    vec![
        grades("form_0_and_grade_16", small_with(5, "0 0 0 0 0 16"), refused(2, 5)),
        grades("unused_name_and_grade_16", small_with(5, "5 0 1 0 1 16"), refused(2, 5)),
        grades("unit_past_by_one_and_grade_16", small_with(5, "5 2 0 0 1 16"), refused(2, 5)),
        grades("name_65536_and_grade_16", small_with(5, "5 65536 0 0 1 16"), refused(11, 5)),
        grades("grade_16_and_trailing_space", small_with(5, "5 0 0 0 1 16 "), refused(11, 5)),
        grades("grade_16_and_no_line_end", cut, refused(11, 5)),
        grades("grade_16_then_malformed", book("3 2 2", ["1 1 0 0 2 16", "x"]), refused(3, 4)),
        grades("grade_16_then_ill_formed", book("3 2 2", ["1 1 0 0 2 16", "7 0 0 0 0 5"]), refused(3, 4)),
        grades("ill_formed_then_grade_16", book("3 2 2", ["7 0 0 0 0 5", "1 1 0 0 2 16"]), refused(2, 4)),
        grades("bad_sizes_then_grade_16", book("0 2 2", ["1 1 0 0 2 16"]), refused(1, 2)),
    ]
}

/// Spoiled texts for grades that no label spoils.
fn reading_in_grades() -> Vec<Sample> {
    vec![
        grades("empty_input_for_grades", Vec::new(), refused(11, 1)),
        grades("only_header_and_sizes_for_grades", small_start(2), refused(11, 3)),
        grades("carriage_returns_for_grades", with_line_ends(small(), "\r\n"), refused(11, 1)),
        grades("double_space_for_grades", small_with(5, "5 0 0  0 1 3"), refused(11, 5)),
        grades("empty_line_at_the_end_for_grades", small_with_before(6, ""), refused(11, 6)),
        grades("concepts_513_for_grades", without_sentences("513 2 2"), refused(1, 2)),
        grades("units_65536_for_grades", without_sentences("3 2 65536"), refused(11, 2)),
        grades("form_7_for_grades", small_with(5, "7 0 0 0 0 3"), refused(2, 5)),
        grades("form_256_for_grades", small_with(5, "256 0 0 0 0 3"), refused(11, 5)),
        grades("role_past_by_one_for_grades", small_with(5, "6 1 0 2 1 5"), refused(2, 5)),
    ]
}

/// Books and boards at their limits in grades. The listings differ from those
/// in models by the digits of the label of all: 2 and not 20.
fn limits_in_grades() -> Vec<Sample> {
    let listed = lists(&[(1, 1, 15), (1, 2, 5), (2, 2, 15)]);
    let one_link = four_labels_a_node(510, &["6 509 0 0 509 1"]);
    vec![
        grades("sentences_512_for_grades", many_sentences(512, b""), listed),
        grades("sentences_513_for_grades", many_sentences(513, b""), refused(4, 516)),
        grades("sentence_513_of_grade_16", many_sentences(512, b"1 1 0 0 2 16\n"), refused(3, 516)),
        grades("sentence_513_of_form_7_for_grades", many_sentences(512, b"7 0 0 0 0 5\n"), refused(2, 516)),
        grades("sentence_513_malformed_for_grades", many_sentences(512, b"1 1 0 0 2\n"), refused(11, 516)),
        grades("board_full_for_grades", four_labels_a_node(510, &[]), settles(2_048, 4_006)),
        grades("board_one_link_too_many_for_grades", one_link, refused(8, 0)),
        grades("board_full_by_its_last_membership_for_grades", units_in_one_concept(508), settles(2_048, 3_984)),
        grades("board_one_membership_too_many_for_grades", units_in_one_concept(509), refused(8, 0)),
        grades("all_sizes_at_their_limits_for_grades", without_sentences("512 32 512"), settles(1_535, 5_424)),
    ]
}

/// The text of a book of 32 concepts and 32 units in which each node is in each
/// concept: with grade 1 in ten of them, with 15 in the rest, and so many units
/// with 15 in concept 1 too.
fn long_listing_in_grades(units: usize) -> Vec<u8> {
    let grade = |third: usize| if third <= 10 { 1 } else { 15 };
    let every = (1..32).map(|third| format!("1 0 0 0 {third} {}", grade(third)));
    let raised = (0..units).map(|unit| format!("5 {unit} 0 0 1 15"));
    book("32 0 32", every.chain(raised))
}

/// Listings and inputs at 16,384 bytes and past them in grades. The listing has
/// 15,036 bytes where only concepts in themselves have 15; 63 more for each of
/// 21 concepts, and one more for each of 25 units. No good text for grades has
/// 16,384 bytes: 512 sentences of 19 bytes and the headers have 9,795.
fn lengths_in_grades() -> Vec<Sample> {
    let long_text = long_input("5 99 0 0 1 18446744073709551615");
    let longer_text = long_input("5 100 0 0 1 18446744073709551615");
    vec![
        grades("listing_of_16384_bytes_for_grades", long_listing_in_grades(25), settles(2_048, 16_384)),
        grades("listing_of_16385_bytes_for_grades", long_listing_in_grades(26), refused(9, 0)),
        grades("input_of_16384_bytes_for_grades", long_text, refused(3, 4)),
        grades("input_of_16385_bytes_for_grades", longer_text, refused(9, 0)),
    ]
}

/// The worked examples in grades.
fn examples_in_grades() -> Vec<Sample> {
    let concepts = [(1, 1, 15), (1, 2, 5), (2, 2, 15), (3, 3, 15), (4, 4, 15)];
    let units = [(5, 1, 3), (5, 2, 3), (6, 2, 4), (6, 3, 3), (6, 4, 3)];
    let drums = [concepts, units].concat();
    let embosser = [(1, 1, 15), (1, 3, 6), (2, 2, 15), (3, 3, 15), (4, 1, 2), (4, 3, 2)];
    let small_listed = [(1, 1, 15), (1, 2, 5), (2, 2, 15), (3, 1, 3), (3, 2, 3)];
    vec![
        grades("drums_in_grades", book("5 1 2", DRUMS), lists(&drums)),
        grades("embosser_in_grades", book("4 1 1", EMBOSSER), lists(&embosser)),
        grades("small_book_in_grades", small(), lists(&small_listed)),
        grades("no_sentence_in_grades", small_start(3), lists(&[(1, 1, 15), (2, 2, 15)])),
    ]
}

/// How grades meet and join. The chain of units has 18 bytes less than in models.
fn rules_in_grades() -> Vec<Sample> {
    let one = (1, 1, 15);
    let two = (2, 2, 15);
    let both = ["2 1 2 0 3 6", "5 0 0 0 1 4", "5 0 0 0 2 14"];
    let in_both = lists(&[one, two, (3, 3, 15), (4, 1, 4), (4, 2, 14), (4, 3, 4)]);
    let joined = ["1 1 0 0 2 9", "1 1 0 0 2 6"];
    let itself = ["6 0 0 0 0 7", "5 0 0 0 1 3", "4 1 0 0 2 6"];
    let links = ["6 0 0 0 1 1", "6 0 0 0 2 9", "5 1 0 0 1 12", "5 2 0 0 1 4", "4 1 0 0 2 15"];
    let linked = lists(&[one, two, (3, 2, 4), (4, 1, 12), (5, 1, 4)]);
    let top = lists(&[(0, 1, 6), one, (2, 1, 6)]);
    let chain_concepts = [one, (1, 2, 15), (1, 3, 7), (1, 4, 7), two, (2, 3, 7), (2, 4, 7)];
    let chain_rest = [(3, 3, 15), (3, 4, 14), (4, 4, 15), (5, 1, 11), (5, 2, 11), (5, 3, 7), (5, 4, 7)];
    let in_chain = [chain_concepts, chain_rest].concat();
    vec![
        grades("lowest_of_three_grades", book("4 0 1", both), in_both),
        grades("higher_of_two_sentences", book("3 0 0", joined), lists(&[one, (1, 2, 9), two])),
        grades("unit_linked_to_itself_in_grades", book("3 1 1", itself), lists(&[one, two, (3, 1, 3), (3, 2, 3)])),
        grades("best_of_two_links", book("3 1 3", links), linked),
        grades("top_on_the_left_in_grades", book("2 0 1", ["1 0 0 0 1 6"]), top),
        grades("chain_fed_by_its_last_sentence_in_grades", chain_of_concepts(15), lists(&in_chain)),
        grades("chain_of_units_in_grades", chain_of_units(), settles(122, 298)),
    ]
}

/// The largest books in grades. The concepts' lines have 63 + 810 + 4,532 bytes
/// and the units' 2,560, with 1,560 digits of nodes and 1,426 of concepts.
fn large_books_in_grades() -> Vec<Sample> {
    vec![
        grades("largest_book_of_form_4_in_grades", largest(), settles(1_535, 5_424)),
        grades("largest_book_of_units_in_grades", largest_of_units(), settles(2_047, 10_970)),
    ]
}

#[cfg(test)]
mod tests {
    use super::*;

    /// The bytes of the text with this name.
    fn bytes_of(name: &str) -> Vec<u8> {
        let found = table().into_iter().find(|sample| sample.name == name);
        found.map(|sample| sample.bytes).unwrap_or_default()
    }

    /// The texts named for their length have it.
    #[test]
    fn lengths_are_as_named() {
        assert_eq!(bytes_of("input_of_16384_bytes").len(), 16_384);
        assert_eq!(bytes_of("input_of_16385_bytes").len(), 16_385);
        assert_eq!(bytes_of("input_of_16385_bytes_with_a_bad_first_line").len(), 16_385);
        assert_eq!(bytes_of("input_of_16384_bytes_and_a_space").len(), 16_385);
        assert_eq!(bytes_of("input_of_16384_bytes_without_last_line_end").len(), 16_384);
        assert_eq!(bytes_of("input_of_16384_bytes_with_a_bad_last_label").len(), 16_384);
        assert_eq!(bytes_of("input_of_16384_bytes_for_grades").len(), 16_384);
        assert_eq!(bytes_of("input_of_16385_bytes_for_grades").len(), 16_385);
    }

    /// The largest book fits the input.
    #[test]
    fn largest_book_fits() {
        let text = bytes_of("largest_book_of_form_4");
        assert!(text.len() <= 16_384);
        assert_eq!(text.iter().filter(|byte| **byte == b'\n').count(), 3 + 512);
    }

    /// The small book is written as it should be.
    #[test]
    fn small_book_is_as_it_should_be() {
        let text = b"concepts roles units\n3 2 2\nform first second role third label\n1 1 0 0 2 5\n5 0 0 0 1 3\n";
        assert_eq!(bytes_of("small_book"), text);
    }
}
