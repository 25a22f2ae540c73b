"""What each shape of a component means: templates for what stands in code and in definitions, where `{0}` is the row of the component.

Code and definition have templates of their own: the prover compares what is made of them.
"""
import dataclasses


@dataclasses.dataclass(frozen=True)
class Shape:
    """How components of a shape are read, what is known about their texts, and how they are written."""

    # The rule by which it is read, in code and as it is defined, and which texts it may have.
    rule: str
    rule_defined: str
    text: str
    # For warnings: the outline of its text, what has to follow that to be read back, and what it begins with.
    outline: str
    bound: str
    begin: str
    # What is written for it, in code and as it is defined.
    written: str = ""
    written_defined: str = ""
    # In the law on what is read back: what it adds to the parts that are shown, and the value of its part.
    adds: str = "record s {{ {0.shown} = true }}"
    value: str = "if_shown s.{0.shown} {0.defined}"
    # Of a date: with which fields of a date it shows the same of each, in code and as it is defined.
    given: str = "fields.{0.shown}.is_some()"
    given_defined: str = "is_some f.{0.shown}"


NUMBER = Shape(
    rule="number(Count::{0.part}, m.padding, {0.width}, {0.lowest}, {0.highest})",
    rule_defined="by.Number Count.{0.part} m.padding {0.width} {0.lowest} {0.highest}",
    text="IsNumber {0.lowest} {0.highest} m.padding {0.width}",
    outline="number m.padding",
    bound="number_bound m.padding",
    begin="Bound.Anything",
    written="Ok(plain(m.padding, {0.width}, {0.code} as u64))",
    written_defined="plain m.padding {0.width} {0.defined}",
)


def year(unit, range, digits, read, read_defined, greatest, width, **more):
    """Years of a range, or their centuries, which are the years by this unit."""
    words = {"EXTENDED": "IsExtended", "STANDARD": "IsStandard"}
    return Shape(
        rule=f"signed(Amount::{{0.part}}, m.sign_is_mandatory, {read})",
        rule_defined=f"by.Signed Amount.{{0.part}} m.sign_is_mandatory ({read_defined})",
        text=f"{words[range]} m.sign_is_mandatory ({digits.lower()} m.padding)",
        begin="signed_begin m.sign_is_mandatory",
        written=f"let years = {{0.code}}; year({range}, {digits}, m.padding, m.sign_is_mandatory, years)",
        written_defined=f"year {greatest} {width} {unit} m.padding m.sign_is_mandatory {{0.defined}}",
        value=f"if_shown s.{{0.shown}} (year_part {{0.defined}} {unit})",
        given="is_{0.base}year_given(fields)",
        given_defined="is_year_given f.{0.base}year f.{0.base}century f.{0.base}year_last_two",
        **more,
    )


EXTENDED = {"outline": "extended m.padding m.sign_is_mandatory", "bound": "Bound.NoDigit"}
STANDARD = {"outline": "signed m.padding m.sign_is_mandatory", "bound": "number_bound m.padding"}

SHAPES = {
    "number": NUMBER,
    "last_two": dataclasses.replace(
        NUMBER,
        written="Ok(last_two(m.padding, {0.code}))",
        written_defined="last_two m.padding {0.defined}",
        value="if_shown s.{0.shown} (magnitude {0.defined} % 100)",
        given="fields.{0.shown}.is_some() || fields.{0.base}year.is_some()",
        given_defined="is_some f.{0.shown} || is_some f.{0.base}year",
    ),
    "extended_year": year(
        1, "EXTENDED", "FULL", "extended_year(m.padding)", "extended_year m.padding", 999999, 4, **EXTENDED,
    ),
    "standard_year": year(
        1, "STANDARD", "FULL", "standard_year(m.padding)", "standard_year m.padding", 9999, 4, **STANDARD,
    ),
    "extended_century": year(
        100, "EXTENDED", "CENTURY", "extended_century(m.padding)", "extended_century m.padding", 999999, 2, **EXTENDED,
    ),
    "standard_century": year(
        100, "STANDARD", "CENTURY", "two(m.padding, 99)", "two m.padding 99", 9999, 2, **STANDARD,
    ),
    "name": Shape(
        rule="name(Count::{0.part}, NameList::{0.names}, m.case_sensitive, {0.first})",
        rule_defined="by.Name Count.{0.part} NameList.{0.names} m.case_sensitive {0.first}",
        text="IsOneOf {0.list}",
        outline="no_number",
        bound="Bound.Anything",
        begin="Bound.NoDigit",
        written="Ok(WrittenField::{0.variant}({0.code}))",
        written_defined="shows.{0.variant} {0.defined}",
    ),
    "weekday": Shape(
        rule="weekday({0.sunday}, m.one_indexed)",
        rule_defined="by.Weekday {0.sunday} m.one_indexed",
        text="IsWeekday m.one_indexed",
        outline="digit",
        bound="Bound.Anything",
        begin="Bound.Anything",
        written="Ok(weekday(m.one_indexed, {0.code}))",
        written_defined="plain Padding.None 1 (from_one m.one_indexed {0.defined})",
    ),
    "period": Shape(
        rule="FieldRule::Period {{ names: periods(m.is_uppercase), is_case_sensitive: m.case_sensitive, }}",
        rule_defined="by.Period (period_names m.is_uppercase) m.case_sensitive",
        text="IsOneOf (periods m.is_uppercase)",
        outline="no_number",
        bound="Bound.Anything",
        begin="Bound.NoDigit",
        written="Ok(WrittenField::Period {{ is_uppercase: m.is_uppercase, is_afternoon: {0.code}, }})",
        written_defined="shows.Period m.is_uppercase {0.defined}",
    ),
    "fraction": Shape(
        rule="FieldRule::Fraction(m.digits)",
        rule_defined="by.Fraction m.digits",
        text="IsSubsecond m.digits",
        outline="fraction m.digits",
        bound="fraction_bound m.digits",
        begin="Bound.Anything",
        written="Ok(WrittenField::Fraction {{ digits: m.digits, nanosecond: {0.code}, }})",
        written_defined="shows.Fraction m.digits {0.defined}",
        adds="record s {{ subsecond = Some (more_digits s.subsecond (digits_shown m.digits)) }}",
        value="cut_where s.{0.shown} {0.defined}",
    ),
    "offset_hours": Shape(
        rule="signed(Amount::{0.part}, m.sign_is_mandatory, two(m.padding, {0.highest}))",
        rule_defined="by.Signed Amount.{0.part} m.sign_is_mandatory (two m.padding {0.highest})",
        text="IsSigned {0.highest} {0.highest} (λ n. m.sign_is_mandatory) (filled m.padding {0.width})",
        begin="signed_begin m.sign_is_mandatory",
        written="let offset = offset_of(moment)?; let sign = sign_of(offset.is_negative, m.sign_is_mandatory); "
        "Ok(signed(sign, m.padding, {0.width}, ({0.code}) as u128))",
        written_defined="signed o.is_negative m.sign_is_mandatory m.padding {0.width} {0.defined}",
        value="if_shown s.{0.shown} (with_sign o.is_negative {0.defined})",
        **STANDARD,
    ),
    "timestamp": Shape(
        rule="signed(Amount::{0.part}, m.sign_is_mandatory, stamp({0.most}, {0.nines}))",
        rule_defined="by.Signed Amount.{0.part} m.sign_is_mandatory (stamp {0.most} {0.nines_defined})",
        text="IsSigned {0.range[0]} {0.range[1]} (λ n. m.sign_is_mandatory) decimal",
        outline="unfilled m.sign_is_mandatory",
        bound="Bound.NoDigit",
        begin="signed_begin m.sign_is_mandatory",
        written="instant_field(moment, {0.code}, m.sign_is_mandatory)",
        value="if_shown s.{0.shown} (with_sign (unix_time d t o).is_negative {0.defined})",
    ),
    "ignored": Shape(
        rule="FieldRule::Ignore(m.count.get())",
        rule_defined="by.Ignore m.count.value",
        text="λ text. text ≡ []",
        outline="no_number",
        bound="Bound.Never",
        begin="known",
        adds="s",
    ),
    "end": Shape(
        rule="FieldRule::End(m.trailing_input)",
        rule_defined="by.End m.trailing_input",
        text="λ text. text ≡ []",
        outline="no_number",
        bound="Bound.End",
        begin="known",
        adds="s",
    ),
}
