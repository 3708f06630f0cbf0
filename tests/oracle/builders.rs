// The plain builders: what arguments each kind takes, and the frame that the Rust builds of them.
#[cfg(source)]
use crate::cmd::{cmd_common::*, cmd_fsk::*, cmd_lora::*};
#[cfg(source)]
use crate::enums::*;
use crate::model::{commands, Field, KINDS};

// A request for a plain builder has the kind as its operation, 1 to this one.
pub const LAST: u8 = KINDS as u8;

// An argument: one of these codes, or any number of a type of `width` bits, of which the frame holds `field`.
#[derive(Clone, Copy)]
pub enum Argument {
    Codes(&'static [u64]),
    Number { field: u32, width: u32 },
}

// The arguments of a kind, in the Rust's order.
pub fn arguments(kind: u8) -> Vec<Argument> {
    commands()[kind as usize - 1].fields.iter().map(argument).collect()
}

// One bit without an enum is a yes or no. A number's type is the least that has its bits; `frame` holds that to the Rust's.
fn argument(field: &Field) -> Argument {
    match (field.rust, field.plain.len() as u32) {
        (Some(codes), _) => Argument::Codes(codes),
        (None, 1) => Argument::Codes(&[0, 1]),
        (None, bits) => Argument::Number { field: bits, width: bits.next_power_of_two().max(8) },
    }
}

#[cfg(source)]
fn yes(x: u64) -> bool {
    x != 0
}

// The frame of a kind. Every argument has the width of its Rust type, so no cast loses a bit.
#[cfg(source)]
pub fn frame(kind: u8, a: &[u64; 9]) -> Vec<u8> {
    let takes = arguments(kind);
    let number = |i: usize, bits: u32| match takes[i] {
        Argument::Number { width, .. } if width == bits => a[i],
        _ => panic!("argument {} of kind {} is no number of {} bits", i, kind, bits),
    };
    let b = |i: usize| number(i, 8) as u8;
    let h = |i: usize| number(i, 16) as u16;
    let w = |i: usize| number(i, 32) as u32;
    let l = |i: usize| number(i, 64);
    match kind {
        1 => set_lora_modulation_params_cmd(sf(a[0]), lora_bw(a[1]), lora_cr(a[2]), ldro(a[3]), lora_filter(a[4])).to_vec(),
        2 => set_lora_packet_params_cmd(h(0), b(1), header_type(a[2]), yes(a[3]), yes(a[4])).to_vec(),
        3 => set_lora_synch_timeout_cmd(b(0), timeout_format(a[1])).to_vec(),
        4 => set_lora_syncword_cmd(b(0)).to_vec(),
        5 => config_lora_preamble_modulation_cmd(yes(a[0]), b(1), h(2), w(3)).to_vec(),
        6 => config_lora_preamble_modulation_adv_cmd(yes(a[0]), b(1), h(2), w(3), b(4), b(5), b(6), b(7), b(8)).to_vec(),
        7 => set_lora_cad_params_cmd(b(0), yes(a[1]), b(2), lora_exit_mode(a[3]), w(4), b(5)).to_vec(),
        8 => set_lora_cad_cmd().to_vec(),
        9 => get_lora_rx_stats_req().to_vec(),
        10 => get_lora_packet_status_req().to_vec(),
        11 => set_lora_address_cmd(addr_len(a[0]), b(1), l(2)).to_vec(),
        12 => set_lora_syncword_extended_cmd(b(0), b(1)).to_vec(),
        13 => set_lora_side_det_syncword_extended_cmd(b(0), b(1), b(2), b(3), b(4), b(5)).to_vec(),
        14 => set_lora_tx_sync_cmd(timing_sync_mode(a[0]), dio_num(a[1])).to_vec(),
        15 => set_lora_blanking_cmd(b(0), b(1), b(2), yes(a[3]), b(4)).to_vec(),
        16 => set_fsk_modulation_params_cmd(w(0), pulse_shape(a[1]), rx_bw(a[2]), w(3)).to_vec(),
        17 => set_fsk_packet_params_cmd(
            h(0),
            pbl_len_detect(a[1]),
            yes(a[2]),
            pld_len_unit(a[3]),
            addr_comp(a[4]),
            fsk_pkt_format(a[5]),
            h(6),
            crc(a[7]),
            yes(a[8]),
        )
        .to_vec(),
        18 => set_fsk_whitening_params_cmd(whiten_type(a[0]), h(1)).to_vec(),
        19 => set_fsk_crc_params_cmd(w(0), w(1)).to_vec(),
        20 => set_fsk_sync_word_cmd(l(0), bit_order(a[1]), b(2)).to_vec(),
        21 => set_fsk_address_cmd(b(0), b(1)).to_vec(),
        22 => get_fsk_rx_stats_req().to_vec(),
        23 => get_fsk_packet_status_req().to_vec(),
        24 => set_rf_frequency_cmd(w(0)).to_vec(),
        25 => set_rx_path_cmd(rx_path(a[0])).to_vec(),
        26 => set_rx_path_adv_cmd(rx_path(a[0]), rx_boost(a[1])).to_vec(),
        27 => set_pa_config_cmd(pa_sel(a[0]), pa_lf_mode(a[1]), b(2), b(3)).to_vec(),
        28 => set_pa_config_adv_cmd(pa_sel(a[0]), pa_lf_mode(a[1]), b(2), b(3), b(4)).to_vec(),
        29 => set_rx_adv_cmd(w(0)).to_vec(),
        30 => set_tx_adv_cmd(w(0)).to_vec(),
        31 => sel_pa_cmd(pa_sel(a[0])).to_vec(),
        32 => set_rx_duty_cycle_cmd(w(0), w(1), yes(a[2]), b(3)).to_vec(),
        33 => set_auto_rx_tx_cmd(yes(a[0]), auto_txrx_mode(a[1]), w(2), w(3)).to_vec(),
        34 => set_default_rx_tx_timeout_cmd(w(0), w(1)).to_vec(),
        35 => set_timestamp_source_cmd(timestamp_index(a[0]), timestamp_source(a[1])).to_vec(),
        36 => set_cca_cmd(w(0)).to_vec(),
        37 => set_cca_adv_cmd(w(0), b(1)).to_vec(),
        38 => set_agc_gain_manual_cmd(b(0)).to_vec(),
        39 => set_cad_params_cmd(w(0), b(1), exit_mode(a[2]), w(3)).to_vec(),
        _ => panic!("{} is no kind", kind),
    }
}
