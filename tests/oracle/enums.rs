// The Rust's enums by code: for each the list of its codes, and the function that gives the value of a code.
use crate::cmd::cmd_common::*;
use crate::cmd::cmd_fsk::*;
use crate::cmd::cmd_lora::*;
use crate::cmd::cmd_system::DioNum;
use crate::cmd::{cmd_common, cmd_lora};

// The codes come from the Rust; the match makes rustc refuse a list that lacks a name.
macro_rules! coded {
    ($($codes:ident, $of:ident, $type:ty: $($name:ident)+;)+) => {
        $(pub const $codes: &[u64] = &[$(<$type>::$name as u64),+];
        pub fn $of(code: u64) -> $type {
            $(if code == <$type>::$name as u64 { return all_named(<$type>::$name); })+
            fn all_named(value: $type) -> $type {
                match value { $(<$type>::$name => value),+ }
            }
            panic!("{} is no code of {}", code, stringify!($type))
        })+
        pub const ENUMS: &[(&str, &[u64])] = &[$((stringify!($codes), $codes)),+];
    };
}

coded! {
    // cmd_lora.rs
    SF, sf, Sf: Sf5 Sf6 Sf7 Sf8 Sf9 Sf10 Sf11 Sf12;
    LORA_BW, lora_bw, LoraBw: Bw7 Bw15 Bw31 Bw62 Bw125 Bw250 Bw500 Bw1000 Bw10 Bw20 Bw41 Bw83 Bw101 Bw203 Bw406 Bw812;
    LORA_CR, lora_cr, LoraCr:
        NoCoding Cr1Ham45Si Cr2Ham23Si Cr3Ham47Si Cr4Ham12Si Cr5Ham45Li Cr6Ham23Li Cr7Ham12Li Cr8Cc23 Cr9Cc12;
    LDRO, ldro, Ldro: Off On;
    LORA_FILTER, lora_filter, LoraFilter: Auto Chf Dcc DccF;
    HEADER_TYPE, header_type, HeaderType: Explicit Implicit;
    TIMEOUT_FORMAT, timeout_format, TimeoutFormat: Integer Float;
    LORA_EXIT_MODE, lora_exit_mode, cmd_lora::ExitMode: CadOnly CadRx CadLbt;
    ADDR_LEN, addr_len, AddrLen: AddrNone Addr1B Addr2B Addr3B Addr4B Addr5B Addr6B Addr7B Addr8B;
    TIMING_SYNC_MODE, timing_sync_mode, TimingSyncMode: Disabled Initiator Responder;
    DIO_NUM, dio_num, DioNum: Dio5 Dio6 Dio7 Dio8 Dio9 Dio10 Dio11;

    // cmd_fsk.rs
    PULSE_SHAPE, pulse_shape, PulseShape:
        None Custom Bt0p3 Bt0p5 Bt0p7 Bt1p0 Bt2p0 Rc0p3 Rc0p5 Rc0p7 Rc1p0 Rrc0p3 Rrc0p4 Rrc0p5 Rrc0p7 Rrc1p0;
    RX_BW, rx_bw, RxBw:
        BwAuto Bw3076 Bw2857 Bw2666 Bw2222 Bw1333 Bw1111 Bw888 Bw769 Bw740 Bw714 Bw666 Bw615 Bw571 Bw555 Bw533 Bw512 Bw476
        Bw444 Bw384 Bw370 Bw357 Bw333 Bw307 Bw285 Bw277 Bw266 Bw256 Bw238 Bw222 Bw192 Bw185 Bw178 Bw166 Bw153 Bw142 Bw138
        Bw133 Bw128 Bw119 Bw111 Bw96 Bw92 Bw89 Bw83 Bw76 Bw71 Bw69 Bw66 Bw64 Bw59 Bw55 Bw48 Bw46 Bw44 Bw41 Bw38 Bw35 Bw34
        Bw33 Bw32 Bw29 Bw27 Bw24 Bw23 Bw22 Bw20 Bw19 Bw17 Bw16 Bw14 Bw13 Bw12 Bw11 Bw10 Bw9p6 Bw8p9 Bw8p7 Bw8p3 Bw8 Bw7p4
        Bw6p9 Bw6 Bw5p8 Bw5p6 Bw5p2 Bw4p8 Bw4p5 Bw4p3 Bw4p2 Bw3p5;
    PBL_LEN_DETECT, pbl_len_detect, PblLenDetect: None Len8Bits Len16Bits Len24Bits Len32Bits;
    PLD_LEN_UNIT, pld_len_unit, PldLenUnit: Bytes Bits;
    ADDR_COMP, addr_comp, AddrComp: Off Node NodeBcast;
    FSK_PKT_FORMAT, fsk_pkt_format, FskPktFormat: FixedLength Variable8bit Variable9bit Variable16bit;
    CRC, crc, Crc: CrcOff Crc1Byte Crc2Byte Crc3Byte Crc4Byte Crc1ByteInv Crc2ByteInv Crc3ByteInv Crc4ByteInv;
    WHITEN_TYPE, whiten_type, WhitenType: Sx126xLr11xx Sx128x;
    BIT_ORDER, bit_order, BitOrder: LsbFirst MsbFirst;

    // cmd_common.rs
    RX_PATH, rx_path, RxPath: LfPath HfPath;
    RX_BOOST, rx_boost, RxBoost: Off B1 B2 B3 B4 B5 B6 Max;
    PA_SEL, pa_sel, PaSel: LfPa HfPa;
    PA_LF_MODE, pa_lf_mode, PaLfMode: LfPaFsm LfPaFdm LfPaHsmRfo1 LfPaHsmRfo2;
    AUTO_TXRX_MODE, auto_txrx_mode, AutoTxrxMode: Disable Always RxOk;
    TIMESTAMP_INDEX, timestamp_index, TimestampIndex: Ts0 Ts1 Ts2;
    TIMESTAMP_SOURCE, timestamp_source, TimestampSource: None TxDone RxDone Sync Header;
    EXIT_MODE, exit_mode, cmd_common::ExitMode: Fallback Tx Rx;
}
