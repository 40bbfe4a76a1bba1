//! Settings and errors in the types of the crate, of its copies and of the package: to Rust each has its own.

macro_rules! settings_of {
    ($copy:ident, $settings:expr) => {
        $copy::DecodeSettings {
            columns: $settings.columns,
            rows: $settings.rows,
            end_of_block: $settings.end_of_block,
            end_of_line: $settings.end_of_line,
            rows_are_byte_aligned: $settings.aligned,
            encoding: match $settings.encoding {
                crate::settings::Encoding::Group4 => $copy::EncodingMode::Group4,
                crate::settings::Encoding::Group3OneD => $copy::EncodingMode::Group3_1D,
                crate::settings::Encoding::Group3TwoD => $copy::EncodingMode::Group3_2D,
            },
            strict: $settings.strict,
        }
    };
}

/// The number that answers an error.
macro_rules! number_of {
    ($copy:ident, $error:expr) => {
        match $error {
            $copy::DecodeError::InvalidCode => 1,
            $copy::DecodeError::UnexpectedEof => 2,
            $copy::DecodeError::Overflow => 3,
        }
    };
}

pub(crate) use {number_of, settings_of};
