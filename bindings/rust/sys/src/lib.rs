//! The calls of `phone.h`, and the library behind them, linked. The crate `phonenumber-proved` stands over it.
//!
//! The header says what each call means, and what a caller owes. In the repository `bindings/declarations.py` makes the block of calls of
//! it, and compares structs and numbers.
#![no_std]

/// A database, or nothing open where `at` is null. It isn't copied, and these calls alone write it.
#[repr(C)]
pub struct Handle {
    pub at: *mut u8,
}

/// The same of a table of prefixes.
#[repr(C)]
pub struct Prefixes {
    pub at: *mut u8,
}

/// The same of an atlas: the tables of texts that a locale asks.
#[repr(C)]
pub struct Atlas {
    pub at: *mut u8,
}

/// Where a text stands, in bytes beside a number.
#[repr(C)]
#[derive(Clone, Copy, Default)]
pub struct Part {
    pub start: usize,
    pub len: usize,
    pub is_there: u8,
}

/// A phone number, whose texts stand in bytes beside it.
#[repr(C)]
#[derive(Clone, Copy, Default)]
pub struct Number {
    pub value: u64,
    pub extension: Part,
    pub carrier: Part,
    pub code: u16,
    pub source: u8,
    pub zeros: u8,
}

/// What is known of a text as a short number of a region: each but the cost is 1, else 0.
#[repr(C)]
#[derive(Clone, Copy, Default)]
pub struct ShortFacts {
    pub cost: u32,
    pub is_possible: u8,
    pub is_valid: u8,
    pub is_carrier_specific: u8,
    pub is_emergency: u8,
    pub reaches_emergency: u8,
}

/// What is known of a region: each but the code is 1, else 0.
#[repr(C)]
#[derive(Clone, Copy, Default)]
pub struct RegionFacts {
    pub code: u16,
    pub is_nanpa: u8,
    pub is_portable: u8,
}

/// What is known of a number: counts of digits, and what is 1, else 0.
#[repr(C)]
#[derive(Clone, Copy, Default)]
pub struct NumberFacts {
    pub area_length: usize,
    pub destination_length: usize,
    pub is_geographical: u8,
    pub is_dialled_from_abroad: u8,
}

/// What is known of a number as a short number of any region of its calling code: each but the cost is 1, else 0.
#[repr(C)]
#[derive(Clone, Copy, Default)]
pub struct FactsAnywhere {
    pub cost: u32,
    pub is_possible: u8,
    pub is_valid: u8,
    pub is_carrier_specific: u8,
}

/// Where a number stands in a text, in bytes.
#[repr(C)]
#[derive(Clone, Copy, Default)]
pub struct Place {
    pub start: usize,
    pub end: usize,
}

/// A column of texts as Arrow lays it out, or one hint for all texts where there is no offset.
#[repr(C)]
#[derive(Clone, Copy)]
pub struct Texts {
    pub offsets: *const u64,
    pub offsets_len: usize,
    pub bytes: *const u8,
    pub bytes_len: usize,
    pub bits: *const u8,
    pub bits_len: usize,
    pub first: usize,
}

/// The same with offsets of 32 bits.
#[repr(C)]
#[derive(Clone, Copy)]
pub struct NarrowTexts {
    pub offsets: *const u32,
    pub offsets_len: usize,
    pub bytes: *const u8,
    pub bytes_len: usize,
    pub bits: *const u8,
    pub bits_len: usize,
    pub first: usize,
}

pub const OK: u32 = 0;
pub const MEMORY: u32 = 7;
pub const TOO_SMALL: u32 = 17;
pub const NOT_UTF8: u32 = 18;
pub const NO_REGION: u32 = 19;
pub const UNKNOWN_CODE: u32 = 20;
pub const NO_PREFIX: u32 = 30;
pub const NO_EXAMPLE: u32 = 32;
pub const NO_TERRITORY: u32 = 34;
pub const BAD_LAYOUT: u32 = 37;

// Made by `bindings/declarations.py --write` of `phone.h`: edit that.
#[rustfmt::skip]
unsafe extern "C" {
    pub fn phone_open(text: *const u8, text_len: usize, rules: u32, handle: *mut Handle) -> u32;
    pub fn phone_open_world(handle: *mut Handle, rules: u32) -> u32;
    pub fn phone_world_text(text_len: *mut usize) -> *const u8;
    pub fn phone_open_newest(
        handle: *mut Handle,
        rules: u32,
        folder: *const u8,
        folder_len: usize,
        out: *mut u8,
        out_len: usize,
        wrote: *mut usize,
    ) -> u32;
    pub fn phone_share(world: *mut Handle, mine: *mut Handle) -> u32;
    pub fn phone_share_by(world: *mut Handle, rules: u32, mine: *mut Handle) -> u32;
    pub fn phone_close(handle: *mut Handle);
    pub fn phone_report(
        handle: *mut Handle,
        hint: *const u8,
        hint_len: usize,
        line: *const u8,
        line_len: usize,
        out: *mut u8,
        out_len: usize,
        wrote: *mut usize,
    ) -> u32;
    pub fn phone_parse(
        handle: *mut Handle,
        hint: *const u8,
        hint_len: usize,
        text: *const u8,
        text_len: usize,
        number: *mut Number,
        out: *mut u8,
        out_len: usize,
        wrote: *mut usize,
    ) -> u32;
    pub fn phone_format(
        handle: *mut Handle,
        number: *const Number,
        bytes: *const u8,
        bytes_len: usize,
        mode: u32,
        out: *mut u8,
        out_len: usize,
        wrote: *mut usize,
    ) -> u32;
    pub fn phone_kind(handle: *mut Handle, number: *const Number, told: *mut u32) -> u32;
    pub fn phone_region(
        handle: *mut Handle,
        number: *const Number,
        out: *mut u8,
        out_len: usize,
        wrote: *mut usize,
    ) -> u32;
    pub fn phone_is_valid(handle: *mut Handle, number: *const Number, told: *mut u8) -> u32;
    pub fn phone_possibility(handle: *mut Handle, number: *const Number, told: *mut u32) -> u32;
    pub fn phone_text_possibility(
        handle: *mut Handle,
        hint: *const u8,
        hint_len: usize,
        text: *const u8,
        text_len: usize,
        told: *mut u32,
    ) -> u32;
    pub fn phone_compare(
        handle: *mut Handle,
        first: *const u8,
        first_len: usize,
        second: *const u8,
        second_len: usize,
        told: *mut u32,
    ) -> u32;
    pub fn phone_dialled_from(
        handle: *mut Handle,
        region: *const u8,
        region_len: usize,
        number: *const Number,
        bytes: *const u8,
        bytes_len: usize,
        out: *mut u8,
        out_len: usize,
        wrote: *mut usize,
    ) -> u32;
    pub fn phone_example(
        handle: *mut Handle,
        region: *const u8,
        region_len: usize,
        kind: u32,
        number: *mut Number,
        out: *mut u8,
        out_len: usize,
        wrote: *mut usize,
    ) -> u32;
    pub fn phone_regions(handle: *mut Handle, out: *mut u8, out_len: usize, wrote: *mut usize) -> u32;
    pub fn phone_codes(handle: *mut Handle, out: *mut u16, out_len: usize, wrote: *mut usize) -> u32;
    pub fn phone_find(
        handle: *mut Handle,
        hint: *const u8,
        hint_len: usize,
        leniency: u32,
        text: *const u8,
        text_len: usize,
        out: *mut Place,
        out_len: usize,
        wrote: *mut usize,
    ) -> u32;
    pub fn phone_columns(
        handle: *mut Handle,
        texts: *const Texts,
        hints: *const Texts,
        columns: *const u32,
        columns_len: usize,
        places: *mut Place,
        places_len: usize,
        out: *mut u8,
        out_len: usize,
        wrote: *mut usize,
    ) -> u32;
    pub fn phone_narrow_columns(
        handle: *mut Handle,
        texts: *const NarrowTexts,
        hints: *const NarrowTexts,
        columns: *const u32,
        columns_len: usize,
        places: *mut Place,
        places_len: usize,
        out: *mut u8,
        out_len: usize,
        wrote: *mut usize,
    ) -> u32;
    pub fn phone_typing_shown(
        handle: *mut Handle,
        hint: *const u8,
        hint_len: usize,
        keys: *const u8,
        keys_len: usize,
        out: *mut u8,
        out_len: usize,
        wrote: *mut usize,
    ) -> u32;
    pub fn phone_typing_caret(
        handle: *mut Handle,
        hint: *const u8,
        hint_len: usize,
        keys: *const u8,
        keys_len: usize,
        n: usize,
        told: *mut usize,
    ) -> u32;
    pub fn phone_keyed_shown(
        handle: *mut Handle,
        hint: *const u8,
        hint_len: usize,
        typed: *const u8,
        typed_len: usize,
        out: *mut u8,
        out_len: usize,
        wrote: *mut usize,
    ) -> u32;
    pub fn phone_keyed_caret(
        handle: *mut Handle,
        hint: *const u8,
        hint_len: usize,
        typed: *const u8,
        typed_len: usize,
        n: usize,
        told: *mut usize,
    ) -> u32;
    pub fn phone_short(
        handle: *mut Handle,
        region: *const u8,
        region_len: usize,
        text: *const u8,
        text_len: usize,
        facts: *mut ShortFacts,
    ) -> u32;
    pub fn phone_about_region(
        handle: *mut Handle,
        region: *const u8,
        region_len: usize,
        facts: *mut RegionFacts,
    ) -> u32;
    pub fn phone_national_prefix(
        handle: *mut Handle,
        region: *const u8,
        region_len: usize,
        only_digits: u8,
        out: *mut u8,
        out_len: usize,
        wrote: *mut usize,
    ) -> u32;
    pub fn phone_region_kinds(
        handle: *mut Handle,
        region: *const u8,
        region_len: usize,
        out: *mut u32,
        out_len: usize,
        wrote: *mut usize,
    ) -> u32;
    pub fn phone_main_region(handle: *mut Handle, code: u16, out: *mut u8, out_len: usize, wrote: *mut usize) -> u32;
    pub fn phone_code_kinds(handle: *mut Handle, code: u16, out: *mut u32, out_len: usize, wrote: *mut usize) -> u32;
    pub fn phone_mobile_token(code: u16, out: *mut u8, out_len: usize, wrote: *mut usize) -> u32;
    pub fn phone_about_number(handle: *mut Handle, number: *const Number, facts: *mut NumberFacts) -> u32;
    pub fn phone_is_valid_for(
        handle: *mut Handle,
        id: *const u8,
        id_len: usize,
        number: *const Number,
        told: *mut u8,
    ) -> u32;
    pub fn phone_possibility_as(handle: *mut Handle, kind: u32, number: *const Number, told: *mut u32) -> u32;
    pub fn phone_is_geographical(kind: u32, code: u16, told: *mut u8) -> u32;
    pub fn phone_truncate(handle: *mut Handle, number: *mut Number, told: *mut u8) -> u32;
    pub fn phone_match_numbers(
        first: *const Number,
        first_bytes: *const u8,
        first_bytes_len: usize,
        second: *const Number,
        second_bytes: *const u8,
        second_bytes_len: usize,
        told: *mut u32,
    ) -> u32;
    pub fn phone_match_text(
        handle: *mut Handle,
        number: *const Number,
        bytes: *const u8,
        bytes_len: usize,
        text: *const u8,
        text_len: usize,
        told: *mut u32,
    ) -> u32;
    pub fn phone_match_texts(
        handle: *mut Handle,
        first: *const u8,
        first_len: usize,
        second: *const u8,
        second_len: usize,
        told: *mut u32,
    ) -> u32;
    pub fn phone_national_with(
        handle: *mut Handle,
        number: *const Number,
        bytes: *const u8,
        bytes_len: usize,
        carrier: *const u8,
        carrier_len: usize,
        prefers_own: u8,
        out: *mut u8,
        out_len: usize,
        wrote: *mut usize,
    ) -> u32;
    pub fn phone_normalize(
        form: u32,
        text: *const u8,
        text_len: usize,
        out: *mut u8,
        out_len: usize,
        wrote: *mut usize,
    ) -> u32;
    pub fn phone_has_letters(text: *const u8, text_len: usize, told: *mut u8) -> u32;
    pub fn phone_prefixes_open(text: *const u8, text_len: usize, prefixes: *mut Prefixes, line: *mut usize) -> u32;
    pub fn phone_prefixes_share(prefixes: *mut Prefixes, mine: *mut Prefixes) -> u32;
    pub fn phone_prefixes_close(prefixes: *mut Prefixes);
    pub fn phone_prefixes_longest(
        prefixes: *mut Prefixes,
        digits: *const u8,
        digits_len: usize,
        out: *mut u8,
        out_len: usize,
        wrote: *mut usize,
        prefix_len: *mut usize,
    ) -> u32;
    pub fn phone_atlas_open(
        locale: *const u8,
        locale_len: usize,
        areas: *mut Prefixes,
        english_areas: *mut Prefixes,
        carriers: *mut Prefixes,
        english_carriers: *mut Prefixes,
        names: *const u8,
        names_len: usize,
        atlas: *mut Atlas,
        line: *mut usize,
    ) -> u32;
    pub fn phone_atlas_close(atlas: *mut Atlas);
    pub fn phone_description(
        handle: *mut Handle,
        atlas: *mut Atlas,
        number: *const Number,
        bytes: *const u8,
        bytes_len: usize,
        user: *const u8,
        user_len: usize,
        as_it_stands: u8,
        out: *mut u8,
        out_len: usize,
        wrote: *mut usize,
    ) -> u32;
    pub fn phone_carrier(
        handle: *mut Handle,
        atlas: *mut Atlas,
        number: *const Number,
        bytes: *const u8,
        bytes_len: usize,
        as_it_stands: u8,
        out: *mut u8,
        out_len: usize,
        wrote: *mut usize,
    ) -> u32;
    pub fn phone_safe_carrier(
        handle: *mut Handle,
        atlas: *mut Atlas,
        number: *const Number,
        bytes: *const u8,
        bytes_len: usize,
        out: *mut u8,
        out_len: usize,
        wrote: *mut usize,
    ) -> u32;
    pub fn phone_country_name(
        handle: *mut Handle,
        atlas: *mut Atlas,
        number: *const Number,
        bytes: *const u8,
        bytes_len: usize,
        out: *mut u8,
        out_len: usize,
        wrote: *mut usize,
    ) -> u32;
    pub fn phone_time_zones(
        handle: *mut Handle,
        zones: *mut Prefixes,
        number: *const Number,
        bytes: *const u8,
        bytes_len: usize,
        as_it_stands: u8,
        out: *mut u8,
        out_len: usize,
        wrote: *mut usize,
    ) -> u32;
    pub fn phone_matches(
        handle: *mut Handle,
        hint: *const u8,
        hint_len: usize,
        leniency: u32,
        tries: u64,
        text: *const u8,
        text_len: usize,
        out: *mut Place,
        out_len: usize,
        wrote: *mut usize,
    ) -> u32;
    pub fn phone_matches_by(
        handle: *mut Handle,
        alternates: *mut Handle,
        hint: *const u8,
        hint_len: usize,
        leniency: u32,
        tries: u64,
        text: *const u8,
        text_len: usize,
        out: *mut Place,
        out_len: usize,
        wrote: *mut usize,
    ) -> u32;
    pub fn phone_key(number: *const Number, out: *mut u8, out_len: usize, wrote: *mut usize) -> u32;
    pub fn phone_is_viable(text: *const u8, text_len: usize, told: *mut u8) -> u32;
    pub fn phone_status_words(status: u32, out: *mut u8, out_len: usize, wrote: *mut usize) -> u32;
    pub fn phone_word(set: u32, value: u32, out: *mut u8, out_len: usize, wrote: *mut usize) -> u32;
    pub fn phone_version() -> u32;
    pub fn phone_table_version(out: *mut u8, out_len: usize, wrote: *mut usize) -> u32;
    pub fn phone_format_read(
        handle: *mut Handle,
        mode: u32,
        raw: *const u8,
        raw_len: usize,
        number: *const Number,
        bytes: *const u8,
        bytes_len: usize,
        out: *mut u8,
        out_len: usize,
        wrote: *mut usize,
    ) -> u32;
    pub fn phone_mobile_text(
        handle: *mut Handle,
        id: *const u8,
        id_len: usize,
        with_symbols: u8,
        raw: *const u8,
        raw_len: usize,
        number: *const Number,
        bytes: *const u8,
        bytes_len: usize,
        out: *mut u8,
        out_len: usize,
        wrote: *mut usize,
    ) -> u32;
    pub fn phone_text_from(
        handle: *mut Handle,
        region: *const u8,
        region_len: usize,
        raw: *const u8,
        raw_len: usize,
        number: *const Number,
        bytes: *const u8,
        bytes_len: usize,
        out: *mut u8,
        out_len: usize,
        wrote: *mut usize,
    ) -> u32;
    pub fn phone_original_text(
        handle: *mut Handle,
        region: *const u8,
        region_len: usize,
        raw: *const u8,
        raw_len: usize,
        number: *const Number,
        bytes: *const u8,
        bytes_len: usize,
        out: *mut u8,
        out_len: usize,
        wrote: *mut usize,
    ) -> u32;
    pub fn phone_format_by(
        handle: *mut Handle,
        layouts: *mut Handle,
        mode: u32,
        number: *const Number,
        bytes: *const u8,
        bytes_len: usize,
        out: *mut u8,
        out_len: usize,
        wrote: *mut usize,
    ) -> u32;
    pub fn phone_short_anywhere(
        handle: *mut Handle,
        shorts: *mut Handle,
        number: *const Number,
        facts: *mut FactsAnywhere,
    ) -> u32;
    pub fn phone_short_example(
        handle: *mut Handle,
        region: *const u8,
        region_len: usize,
        cost: u32,
        out: *mut u8,
        out_len: usize,
        wrote: *mut usize,
    ) -> u32;
    pub fn phone_is_sms_service(
        handle: *mut Handle,
        services: *mut Handle,
        region: *const u8,
        region_len: usize,
        number: *const Number,
        told: *mut u8,
    ) -> u32;
    pub fn phone_example_of_code(
        handle: *mut Handle,
        code: u16,
        number: *mut Number,
        out: *mut u8,
        out_len: usize,
        wrote: *mut usize,
    ) -> u32;
    pub fn phone_invalid_example(
        handle: *mut Handle,
        region: *const u8,
        region_len: usize,
        number: *mut Number,
        out: *mut u8,
        out_len: usize,
        wrote: *mut usize,
    ) -> u32;
    pub fn phone_text_with_letters(
        handle: *mut Handle,
        region: *const u8,
        region_len: usize,
        raw: *const u8,
        raw_len: usize,
        number: *const Number,
        bytes: *const u8,
        bytes_len: usize,
        out: *mut u8,
        out_len: usize,
        wrote: *mut usize,
    ) -> u32;
    pub fn phone_dialled_with_letters(
        handle: *mut Handle,
        region: *const u8,
        region_len: usize,
        raw: *const u8,
        raw_len: usize,
        number: *const Number,
        bytes: *const u8,
        bytes_len: usize,
        out: *mut u8,
        out_len: usize,
        wrote: *mut usize,
    ) -> u32;
    pub fn phone_extract(text: *const u8, text_len: usize, out: *mut u8, out_len: usize, wrote: *mut usize) -> u32;
    pub fn phone_example_of_kind(
        handle: *mut Handle,
        kind: u32,
        number: *mut Number,
        out: *mut u8,
        out_len: usize,
        wrote: *mut usize,
    ) -> u32;
    pub fn phone_own_mobile_text(
        handle: *mut Handle,
        id: *const u8,
        id_len: usize,
        with_symbols: u8,
        number: *const Number,
        bytes: *const u8,
        bytes_len: usize,
        out: *mut u8,
        out_len: usize,
        wrote: *mut usize,
    ) -> u32;
    pub fn phone_reaches_from_abroad(handle: *mut Handle, number: *const Number, told: *mut u8) -> u32;
    pub fn phone_known_cost(handle: *mut Handle, shorts: *mut Handle, number: *const Number, told: *mut u32) -> u32;
    pub fn phone_own_possibility(handle: *mut Handle, kind: u32, number: *const Number, told: *mut u32) -> u32;
    pub fn phone_own_match_numbers(
        first: *const Number,
        first_bytes: *const u8,
        first_bytes_len: usize,
        second: *const Number,
        second_bytes: *const u8,
        second_bytes_len: usize,
        told: *mut u32,
    ) -> u32;
    pub fn phone_own_match_text(
        handle: *mut Handle,
        number: *const Number,
        bytes: *const u8,
        bytes_len: usize,
        text: *const u8,
        text_len: usize,
        told: *mut u32,
    ) -> u32;
    pub fn phone_own_match_texts(
        handle: *mut Handle,
        first: *const u8,
        first_len: usize,
        second: *const u8,
        second_len: usize,
        told: *mut u32,
    ) -> u32;
}

/// Any cost, of `phone_short_example`.
pub const COST_ANY: u32 = 4;

/// The version of the calls that is declared here.
pub const VERSION: u32 = 3;
