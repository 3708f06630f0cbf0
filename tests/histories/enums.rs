// The codes of the Rust's enums as numbers, for where its files are not at hand; where they are, oracle/main.rs holds these to them.
macro_rules! listed {
    ($($name:ident: $codes:expr;)+) => {
        $(pub const $name: &[u64] = &$codes;)+
        pub const ENUMS: &[(&str, &[u64])] = &[$((stringify!($name), $name)),+];
    };
}

listed! {
    SF: [5, 6, 7, 8, 9, 10, 11, 12];
    LORA_BW: [0, 1, 2, 3, 4, 5, 6, 7, 8, 9, 10, 11, 12, 13, 14, 15];
    LORA_CR: [0, 1, 2, 3, 4, 5, 6, 7, 8, 9];
    LDRO: [0, 1];
    LORA_FILTER: [0, 1, 2, 3];
    HEADER_TYPE: [0, 1];
    TIMEOUT_FORMAT: [0, 1];
    LORA_EXIT_MODE: [0, 1, 16];
    ADDR_LEN: [0, 1, 2, 3, 4, 5, 6, 7, 8];
    TIMING_SYNC_MODE: [0, 1, 2];
    DIO_NUM: [5, 6, 7, 8, 9, 10, 11];
    PULSE_SHAPE: [0, 1, 2, 3, 4, 5, 6, 7, 8, 9, 10, 11, 12, 13, 14, 15];
    PBL_LEN_DETECT: [0, 8, 16, 24, 32];
    PLD_LEN_UNIT: [0, 1];
    ADDR_COMP: [0, 1, 2];
    FSK_PKT_FORMAT: [0, 1, 2, 3];
    CRC: [0, 1, 2, 3, 4, 9, 10, 11, 12];
    WHITEN_TYPE: [0, 1];
    BIT_ORDER: [0, 1];
    RX_PATH: [0, 1];
    RX_BOOST: [0, 1, 2, 3, 4, 5, 6, 7];
    PA_SEL: [0, 1];
    PA_LF_MODE: [0, 1, 2, 3];
    AUTO_TXRX_MODE: [0, 1, 2];
    TIMESTAMP_INDEX: [0, 1, 2];
    TIMESTAMP_SOURCE: [0, 1, 2, 3, 4];
    EXIT_MODE: [0, 1, 2];
    RX_BW: [
        255, 0, 64, 128, 192, 136, 200, 144, 24, 208, 88, 152, 32, 96, 216, 160, 17, 81, 224, 25, 209, 89, 153, 33, 97,
        217, 161, 18, 82, 225, 26, 210, 90, 154, 34, 98, 218, 162, 19, 83, 226, 27, 211, 91, 155, 35, 99, 219, 163, 20,
        84, 227, 28, 212, 92, 156, 36, 100, 220, 164, 21, 85, 228, 29, 213, 93, 157, 37, 101, 165, 86, 229, 30, 94,
        158, 38, 102, 222, 166, 23, 87, 230, 31, 215, 95, 159, 39, 103, 223, 167, 231,
    ];
}
