/* Answers the rows of headers.in, which gate/c-rows compares with headers.out. */

#include "headers.h"

uint32_t kind_of(const struct field *fields) {
    return (uint32_t)fields[0].number;
}

const char *text_of(const struct field *field) {
    return (const char *)field->bytes;
}

int main(void) {
    static const struct call calls[] = {
        {"moment_of_time", "nn", moment_of_time},
        {"moment_of_timespec", "nnn", moment_of_timespec},
        {"moment_of_tm", "nnnnnn", moment_of_tm},
        {"moment_of_tm_with_offset", "nnnnnnn", moment_of_tm_with_offset},
        {"time_of_moment", "nnnnnnnnn", time_of_moment},
        {"timespec_of_moment", "nnnnnnnnn", timespec_of_moment},
        {"tm_of_moment", "nnnnnnnnn", tm_of_moment},
        {"as_gmtime", "nnn", as_gmtime},
        {"judge_text", "nt", judge_text},
        {"check_text", "ntn", check_text},
        {"diagnose_text", "nt", diagnose_text},
        {"warnings_text", "nt", warnings_text},
        {"convert_text", "nnt", convert_text},
        {"convert_format_text", "nt", convert_format_text},
        {"read_text", "nt", read_text},
        {"read_within_text", "ntn", read_within_text},
        {"read_composites_text", "t", read_composites_text},
        {"format_text", "ntnnnnnnnnn", format_text},
        {"format_nodes_text", "ntnnnnnnnnn", format_nodes_text},
        {"read_date_text", "ntt", read_date_text},
        {"fault_name", "nt", fault_name},
        {"component_name", "t", component_name},
        {"status_sentence", "n", status_sentence},
        {"unshown_sentence", "n", unshown_sentence},
        {"reason", "nt", reason},
        {"range_sentence", "n", range_sentence},
        {"part_name", "n", part_name},
        {"format_sentence", "ntnnnnnnnnn", format_sentence},
        {"read_date_sentence", "ntt", read_date_sentence},
        {0},
    };
    return answer_rows(calls);
}
