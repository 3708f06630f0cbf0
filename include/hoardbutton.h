/* Hoardbutton for C: frames of the LR2021 radio, its status and responses, a settings book in a lent buffer, which two sides may share,
 * recorded days, the receive widths of banks, the locker profile, a controller, reels and dumps.
 *
 * Every function answers every input; none traps, allocates, keeps a pointer or touches a global, so all may be called from several threads
 * and from an interrupt at the same time, as long as no buffer is written by one call while another has it. A refusal is one of
 * HB_REFUSED_.., 0 where there is none; a refused call alters no buffer that it was lent, and all else in its answer is 0 but the place.
 * There are two exceptions: hb_play gives on 15 what the records before the fault have made, and an hb_control has a state beside its refusal.
 * A caller owes two things: a pointer has as many elements as its length says (it may be null where that is 0), and buffers lent to one call
 * do not overlap.
 *
 * A kind is a command's number, HB_SET_RF_FREQUENCY and so on. A frame is the bytes of one command. A kind is a setting's, which a book
 * keeps, or an action; three settings have two kinds, a shorter and a longer form. docs/REFERENCE.md has the bytes of all. The constants
 * here come from docs/commands.json by docs/make_reference.py. */
#ifndef HOARDBUTTON_H
#define HOARDBUTTON_H

#include <stdbool.h>
#include <stddef.h>
#include <stdint.h>

#ifdef __cplusplus
extern "C" {
#endif

/* ---- sizes */

/* from commands.json: sizes */
#define HB_KINDS 39 /* kinds of commands; a kind is a number from 1 */
#define HB_SETTINGS 29 /* of them kinds of settings, each with a slot in a book */
#define HB_FRAME_MAX 12 /* bytes of the longest frame (kind 6) */
#define HB_ARGS_MAX 9 /* arguments of the kinds that have most (6 and 17) */
#define HB_BOOK_MIN 62 /* bytes of the smallest book, which holds no frame */
#define HB_BOOK_MAX 4096 /* bytes of the largest buffer that a book may have */
#define HB_BOOK_ALL 231 /* bytes of a book that holds all 26 settings at once, of two forms the longer one */
#define HB_REPLAY_MAX 195 /* bytes of the replay of such a book; none is longer */
#define HB_LEVEL_TEXT_MAX 8 /* bytes of the longest text of a level (-32767.5) */
#define HB_SNR_TEXT_MAX 6 /* bytes of the longest text of a ratio (-32.00) */
#define HB_DUMP_LINE_MAX 64 /* bytes of the longest line of a dump with its newline (kind 6, an index of 20 digits) */
#define HB_DUMP_BYTE_MAX 28 /* bytes of text at most for each byte of a reel (a cut frame of one byte, an index of 20 digits) */
#define HB_BANKS_MAX 32 /* banks of the longest list of needs and codes */
/* end: sizes */

/* An output of so many bytes takes the dump of any reel of n bytes. */
#define HB_DUMP_MAX(n) (HB_DUMP_BYTE_MAX * (n))

/* ---- refusals: each with what it says; the place is 0 but for 4, 5, 6, 15, 19 and 20 */

/* from commands.json: refusals */
#define HB_REFUSED_SHORT_FRAME 1 /* a frame has fewer than two bytes */
#define HB_REFUSED_UNKNOWN_OPCODE 2 /* no command has the frame's opcode */
#define HB_REFUSED_WRONG_LENGTH 3 /* its opcode is known, but no command with that opcode has the frame's length */
#define HB_REFUSED_STRAY_BIT 4 /* a bit is set that belongs to none of the command's arguments; place: the lowest such byte of the frame, from 0 */
#define HB_REFUSED_UNKNOWN_CODE 5 /* an argument's bits are no code of its enum, or a number over its limit; place: the lowest such byte of the frame, from 0 */
#define HB_REFUSED_ARGUMENT_OUTSIDE 6 /* an argument is missing, surplus, or not one that its builder takes; place: the first such argument, from 1 */
#define HB_REFUSED_RESPONSE_LENGTH 7 /* a response has not its length */
#define HB_REFUSED_NO_ROOM 8 /* the frames of the book would end behind its buffer, or those of a side exceed its quota */
#define HB_REFUSED_NOT_HELD 9 /* the book has no frame of that kind */
#define HB_REFUSED_NOT_WELL_FORMED 10 /* the bytes are no well formed book */
#define HB_REFUSED_BUFFER_SIZE 11 /* the book's buffer is shorter than 62 bytes or longer than 4,096 */
#define HB_REFUSED_OUTPUT_SHORT 12 /* the output is too short for what has to be written */
#define HB_REFUSED_NOT_A_KIND 13 /* there is no such kind, or the book was given an action */
#define HB_REFUSED_REEL_CUT 14 /* the reel breaks off within a frame, or the place lies behind it */
#define HB_REFUSED_TRACE_FAULT 15 /* a trace's header or one of its records breaks off, its first record would stand within the header, or a direction is neither 0 nor 1; place: the byte of the trace where the record starts, from 0; 0 for the header */
#define HB_REFUSED_BOTH_FORMS 16 /* the book holds a setting in both its forms */
#define HB_REFUSED_OWNERS_WRONG 17 /* an owner table has not 29 entries, an owner or the caller is neither 1 nor 2, the two forms of a setting have two owners, the quotas together exceed the buffer's length less 62, or a side holds more than its quota */
#define HB_REFUSED_OTHER_SIDE 18 /* the kind is the other side's */
#define HB_REFUSED_NO_WIDTH 19 /* no listed width is at least the bank's need; place: the bank, from 1 */
#define HB_REFUSED_NOT_NARROWEST 20 /* the code proposed for the bank is not the narrowest listed one whose width is at least its need; place: the bank, from 1 */
#define HB_REFUSED_LIST_LENGTH 21 /* a list has not 1 to 32 banks, or the list of codes has another length */
#define HB_REFUSED_SETTING_MISSING 22 /* the locker profile cannot be judged, since the book lacks a frame of kind 1, 2 or 4; one of them missing is enough */
/* end: refusals */

/* ---- kinds: each with its arguments in their order. A code is one of the constants named, a yes is 1 and a no is 0; hb_plain takes any
 * number where hb_checked takes a range. */

/* from commands.json: kinds */
/* Sets the modulation of LoRa packets. If the packet type is not LoRa, the next command's status is Fail.
 *   sf           HB_SF_..           spreading factor
 *   lora_bw      HB_LORA_BW_..      width
 *   lora_cr      HB_LORA_CR_..      coding rate
 *   ldro         HB_LDRO_..         low data rate optimisation
 *   lora_filter  HB_LORA_FILTER_..  extra filter for the fractional widths */
#define HB_SET_LORA_MODULATION_PARAMS 1

/* Sets the shape of LoRa packets.
 *   pbl_len      0 to 65535         length of the preamble, in symbols
 *   payload_len  0 to 255           length of the payload, in bytes
 *   header_type  HB_HEADER_TYPE_..  whether a packet carries a header
 *   crc_en       1 or 0             whether a packet carries a CRC
 *   invert_iq    1 or 0             whether I and Q change places */
#define HB_SET_LORA_PACKET_PARAMS 2

/* Sets for how long the LoRa modem looks for a signal.
 *   symbols         0 to 255              0 for ever; else a count, or with Float a mantissa m (bits 4-0) and an exponent e (bits 7-5), m
 *                                         times 2^(2e+1), in symbols
 *   timeout_format  HB_TIMEOUT_FORMAT_..  how symbols is written */
#define HB_SET_LORA_SYNCH_TIMEOUT 3

/* Sets the LoRa sync word.
 *   syncword  0 to 255  0x12 in private networks, which is also the radio's default; 0x34 in public ones */
#define HB_SET_LORA_SYNCWORD 4

/* Configures the phase modulation of the LoRa preamble. One setting with HB_CONFIG_LORA_PREAMBLE_MODULATION_ADV: a book holds one of the
 * two.
 *   pmod_en         1 or 0         whether the preamble is phase modulated
 *   dram_ret        0 to 7         what memory the radio keeps while it sleeps
 *   wakeup_time     0 to 65535     time to wake up
 *   min_sleep_time  0 to 16777215  least time to sleep */
#define HB_CONFIG_LORA_PREAMBLE_MODULATION 5

/* Kind 5 with its detection tuned. One setting with HB_CONFIG_LORA_PREAMBLE_MODULATION: a book holds one of the two.
 *   pmod_en          1 or 0         whether the preamble is phase modulated
 *   dram_ret         0 to 7         what memory the radio keeps while it sleeps
 *   wakeup_time      0 to 65535     time to wake up
 *   min_sleep_time   0 to 16777215  least time to sleep
 *   err_thr          0 to 127       threshold on errors
 *   min_sym          0 to 15        least length, in symbols
 *   detect_time_sym  0 to 15        time to detect, in symbols
 *   start_offset     0 to 255
 *   end_offset       0 to 255 */
#define HB_CONFIG_LORA_PREAMBLE_MODULATION_ADV 6

/* Sets how LoRa channel activity is detected.
 *   nb_symbols  0 to 255                  how long it looks, in symbols
 *   pbl_any     1 or 0
 *   pnr_delta   0 to 15
 *   exit_mode   HB_LORA_CAD_EXIT_MODE_..  what follows the detection
 *   timeout     0 to 16777215             time-out of what follows
 *   det_peak    0 to 255 */
#define HB_SET_LORA_CAD_PARAMS 7

/* An action. Starts the LoRa channel activity detection that kind 7 set. No arguments. */
#define HB_SET_LORA_CAD 8

/* An action. Asks for LoraRxStatsRsp. Its counters go back to 0 at power-on, after a sleep without memory, and on the radio's reset
 * command. No arguments. */
#define HB_GET_LORA_RX_STATS 9

/* An action. Asks for LoraPacketStatusRsp. It is renewed at the end of a reception or of a detection. No arguments. */
#define HB_GET_LORA_PACKET_STATUS 10

/* Sets the address by which LoRa packets are filtered.
 *   addr_len  HB_ADDR_LEN_..  how many bytes are compared
 *   addr_pos  0 to 15         where the address stands in the payload
 *   addr      any number      the address */
#define HB_SET_LORA_ADDRESS 11

/* Sets all ten bits of the LoRa sync word.
 *   sync1  0 to 31  first half
 *   sync2  0 to 31  second half */
#define HB_SET_LORA_SYNCWORD_EXTENDED 12

/* Sets all ten bits of the sync words of the three side detectors.
 *   sd1_sw1  0 to 31  detector 1, first half
 *   sd1_sw2  0 to 31  detector 1, second half
 *   sd2_sw1  0 to 31  detector 2, first half
 *   sd2_sw2  0 to 31  detector 2, second half
 *   sd3_sw1  0 to 31  detector 3, first half
 *   sd3_sw2  0 to 31  detector 3, second half */
#define HB_SET_LORA_SIDE_DET_SYNCWORD_EXTENDED 13

/* Synchronizes LoRa transmissions by a DIO pin.
 *   timing_sync_mode  HB_TIMING_SYNC_MODE_..  the radio's part in it
 *   dio_num           0 to 15                 the pin; the Rust has 5 to 11 */
#define HB_SET_LORA_TX_SYNC 14

/* Sets the blanking of the LoRa receiver. It shares its opcode with kind 14.
 *   thr_gain  0 to 3
 *   thr       0 to 15
 *   lvl_gain  0 to 3
 *   detect    1 or 0
 *   rssi_thr  0 to 15  threshold on the RSSI */
#define HB_SET_LORA_BLANKING 15

/* Sets the modulation of FSK packets. If the packet type is not FSK, the next command's status is Fail.
 *   bitrate      0 to 4294967295    bit rate, in bit/s
 *   pulse_shape  HB_PULSE_SHAPE_..  filter of the pulses
 *   rx_bw        HB_RX_BW_..        receive width
 *   fdev         0 to 16777215      frequency deviation, in Hz */
#define HB_SET_FSK_MODULATION_PARAMS 16

/* Sets the shape of FSK packets; fails if the packet type is not FSK.
 *   pbl_len_tx      0 to 65535                                    length of the preamble that is sent, in bits
 *   pbl_len_detect  HB_PBL_LEN_DETECT_..                          length of preamble that counts as detected
 *   pbl_long        1 or 0
 *   pld_len_unit    HB_PLD_LEN_UNIT_BYTES only, but for hb_plain  unit of pld_len; it shares its bit with pbl_long
 *   addr_comp       HB_ADDR_COMP_..                               which addresses are compared
 *   fsk_pkt_format  HB_FSK_PKT_FORMAT_..                          whether and how a packet tells its length
 *   pld_len         0 to 65535                                    length of the payload, in pld_len_unit
 *   crc             HB_CRC_..                                     CRC of a packet
 *   dc_free         1 or 0 */
#define HB_SET_FSK_PACKET_PARAMS 17

/* Sets the whitening of FSK packets.
 *   whiten_type  HB_WHITEN_TYPE_..  whose whitening
 *   init         0 to 4095          start value; its upper bits share byte 2 with whiten_type */
#define HB_SET_FSK_WHITENING_PARAMS 18

/* Sets the CRC of FSK packets.
 *   polynom  0 to 4294967295  polynomial
 *   init     0 to 4294967295  start value */
#define HB_SET_FSK_CRC_PARAMS 19

/* Sets the FSK sync word.
 *   syncword   any number       the sync word
 *   bit_order  HB_BIT_ORDER_..  which bit goes first over the air
 *   nb_bits    0 to 64          its length, in bits; the plain builder cuts it to seven bits */
#define HB_SET_FSK_SYNC_WORD 20

/* Sets the addresses by which FSK packets are filtered.
 *   addr_node   0 to 255  the node's own
 *   addr_bcast  0 to 255  that of all */
#define HB_SET_FSK_ADDRESS 21

/* An action. Asks for FskRxStatsRsp. No arguments. */
#define HB_GET_FSK_RX_STATS 22

/* An action. Asks for FskPacketStatusRsp. It is renewed at the end of a reception, rssi_sync already at the sync word. No arguments. */
#define HB_GET_FSK_PACKET_STATUS 23

/* Sets the radio frequency. It has no effect while the radio transmits.
 *   rf_freq  0 to 4294967295  the frequency, in Hz */
#define HB_SET_RF_FREQUENCY 24

/* Chooses the receive path. One setting with HB_SET_RX_PATH_ADV: a book holds one of the two.
 *   rx_path  HB_RX_PATH_..  input of the receiver */
#define HB_SET_RX_PATH 25

/* Chooses the receive path and its boost. A new boost makes the radio calibrate its ADC offset again. One setting with HB_SET_RX_PATH: a
 * book holds one of the two.
 *   rx_path   HB_RX_PATH_..   input of the receiver
 *   rx_boost  HB_RX_BOOST_..  boost of the receiver */
#define HB_SET_RX_PATH_ADV 26

/* Chooses and configures a power amplifier. One setting with HB_SET_PA_CONFIG_ADV: a book holds one of the two.
 *   pa_sel            HB_PA_SEL_..      which amplifier
 *   pa_lf_mode        HB_PA_LF_MODE_..  mode of the low frequency amplifier; 0 where it is not used
 *   pa_lf_duty_cycle  0 to 7            duty cycle of the low frequency amplifier; its top bit is that of pa_sel
 *   pa_lf_slices      0 to 15           slices of the low frequency amplifier */
#define HB_SET_PA_CONFIG 27

/* Kind 27, with the high frequency amplifier. One setting with HB_SET_PA_CONFIG: a book holds one of the two.
 *   pa_sel            HB_PA_SEL_..      which amplifier
 *   pa_lf_mode        HB_PA_LF_MODE_..  mode of the low frequency amplifier; 0 where it is not used
 *   pa_lf_duty_cycle  0 to 7            duty cycle of the low frequency amplifier; its top bit is that of pa_sel
 *   pa_lf_slices      0 to 15           slices of the low frequency amplifier
 *   pa_hf_duty_cycle  0 to 31           duty cycle of the high frequency amplifier */
#define HB_SET_PA_CONFIG_ADV 28

/* An action. Receives.
 *   rx_timeout  0 to 16777215  longest time to receive, 512 s at most, in steps of 1/32.768 kHz */
#define HB_SET_RX_ADV 29

/* An action. Transmits.
 *   tx_timeout  0 to 16777215  longest time to transmit, 512 s at most, in steps of 1/32.768 kHz */
#define HB_SET_TX_ADV 30

/* Selects a power amplifier that kind 27 or 28 has configured. It has no effect while the radio transmits.
 *   pa_sel  HB_PA_SEL_..  which amplifier */
#define HB_SEL_PA 31

/* An action. Receives once in each cycle.
 *   rx_max_time   0 to 16777215  how long it listens
 *   cycle_time    0 to 16777215  length of a cycle
 *   use_lora_cad  1 or 0         whether it listens by a LoRa channel activity detection
 *   dram_ret      0 to 7         what memory the radio keeps while it sleeps */
#define HB_SET_RX_DUTY_CYCLE 32

/* Makes the radio receive by itself after each transmission, or transmit after each reception.
 *   clear           1 or 0
 *   auto_txrx_mode  HB_AUTO_TXRX_MODE_..  when it turns
 *   timeout         0 to 16777215         time-out of what follows
 *   delay           0 to 4294967295       how long it waits before */
#define HB_SET_AUTO_RX_TX 33

/* Sets the time-outs for receptions and transmissions that bring none, as those that a pin triggers.
 *   rx_timeout  0 to 16777215  longest time to receive, 512 s at most, in steps of 1/32.768 kHz
 *   tx_timeout  0 to 16777215  longest time to transmit, 512 s at most, in steps of 1/32.768 kHz */
#define HB_SET_DEFAULT_RX_TX_TIMEOUT 34

/* Sets the event that one of the three time stamps marks.
 *   timestamp_index   HB_TIMESTAMP_INDEX_..   which time stamp
 *   timestamp_source  HB_TIMESTAMP_SOURCE_..  the event */
#define HB_SET_TIMESTAMP_SOURCE 35

/* An action. Measures the RSSI, to tell whether the channel is clear.
 *   duration  0 to 16777215  how long it measures */
#define HB_SET_CCA 36

/* An action. Kind 36 at a gain of one's own.
 *   duration  0 to 16777215  how long it measures
 *   gain      0 to 255       the gain */
#define HB_SET_CCA_ADV 37

/* Sets the receiver's gain.
 *   gain_step  0 to 15  0 leaves it to the radio */
#define HB_SET_AGC_GAIN_MANUAL 38

/* Sets how the RSSI tells channel activity, for packet types other than LoRa.
 *   cad_timeout  0 to 16777215        how long it looks
 *   threshold    0 to 255             RSSI from which a channel is active
 *   exit_mode    HB_CAD_EXIT_MODE_..  what follows the detection
 *   trx_timeout  0 to 16777215        time-out of what follows */
#define HB_SET_CAD_PARAMS 39
/* end: kinds */

/* ---- codes of the enums */

/* from commands.json: codes */
/* Spreading factor: 2^n chips a symbol. */
#define HB_SF_5 5
#define HB_SF_6 6
#define HB_SF_7 7
#define HB_SF_8 8
#define HB_SF_9 9
#define HB_SF_10 10
#define HB_SF_11 11
#define HB_SF_12 12

/* LoRa width in kHz, without its fraction. */
#define HB_LORA_BW_7 0
#define HB_LORA_BW_15 1
#define HB_LORA_BW_31 2
#define HB_LORA_BW_62 3
#define HB_LORA_BW_125 4
#define HB_LORA_BW_250 5
#define HB_LORA_BW_500 6
#define HB_LORA_BW_1000 7
#define HB_LORA_BW_10 8
#define HB_LORA_BW_20 9
#define HB_LORA_BW_41 10
#define HB_LORA_BW_83 11
#define HB_LORA_BW_101 12
#define HB_LORA_BW_203 13
#define HB_LORA_BW_406 14
#define HB_LORA_BW_812 15

/* LoRa coding rate: its Hamming (Ham) or convolutional (Cc) code, with short (Si) or long (Li) interleaving. */
#define HB_LORA_CR_NO_CODING 0
#define HB_LORA_CR_CR1_HAM45_SI 1
#define HB_LORA_CR_CR2_HAM23_SI 2
#define HB_LORA_CR_CR3_HAM47_SI 3
#define HB_LORA_CR_CR4_HAM12_SI 4
#define HB_LORA_CR_CR5_HAM45_LI 5
#define HB_LORA_CR_CR6_HAM23_LI 6
#define HB_LORA_CR_CR7_HAM12_LI 7
#define HB_LORA_CR_CR8_CC23 8
#define HB_LORA_CR_CR9_CC12 9

/* Low data rate optimisation: bears more drift of the clock at high spreading factors. */
#define HB_LDRO_OFF 0
#define HB_LDRO_ON 1

/* Extra filter for the fractional LoRa widths. */
#define HB_LORA_FILTER_AUTO 0
#define HB_LORA_FILTER_CHF 1
#define HB_LORA_FILTER_DCC 2
#define HB_LORA_FILTER_DCC_F 3

/* Whether a LoRa packet carries its own header. */
#define HB_HEADER_TYPE_EXPLICIT 0
#define HB_HEADER_TYPE_IMPLICIT 1

/* How a number of symbols is written: as a count, or as mantissa and exponent (kind 3). */
#define HB_TIMEOUT_FORMAT_INTEGER 0
#define HB_TIMEOUT_FORMAT_FLOAT 1

/* What follows a LoRa channel activity detection. */
#define HB_LORA_CAD_EXIT_MODE_ONLY 0
#define HB_LORA_CAD_EXIT_MODE_RX 1
#define HB_LORA_CAD_EXIT_MODE_LBT 16

/* How many bytes of a LoRa address are compared. */
#define HB_ADDR_LEN_NONE 0
#define HB_ADDR_LEN_1B 1
#define HB_ADDR_LEN_2B 2
#define HB_ADDR_LEN_3B 3
#define HB_ADDR_LEN_4B 4
#define HB_ADDR_LEN_5B 5
#define HB_ADDR_LEN_6B 6
#define HB_ADDR_LEN_7B 7
#define HB_ADDR_LEN_8B 8

/* The radio's part in a synchronized transmission. */
#define HB_TIMING_SYNC_MODE_DISABLED 0
#define HB_TIMING_SYNC_MODE_INITIATOR 1
#define HB_TIMING_SYNC_MODE_RESPONDER 2

/* Filter of FSK pulses: Gaussian (Bt), raised cosine (Rc), root raised cosine (Rrc). */
#define HB_PULSE_SHAPE_NONE 0
#define HB_PULSE_SHAPE_CUSTOM 1
#define HB_PULSE_SHAPE_BT0P3 4
#define HB_PULSE_SHAPE_BT0P5 5
#define HB_PULSE_SHAPE_BT0P7 6
#define HB_PULSE_SHAPE_BT1P0 7
#define HB_PULSE_SHAPE_BT2P0 2
#define HB_PULSE_SHAPE_RC0P3 8
#define HB_PULSE_SHAPE_RC0P5 9
#define HB_PULSE_SHAPE_RC0P7 10
#define HB_PULSE_SHAPE_RC1P0 11
#define HB_PULSE_SHAPE_RRC0P3 12
#define HB_PULSE_SHAPE_RRC0P4 3
#define HB_PULSE_SHAPE_RRC0P5 13
#define HB_PULSE_SHAPE_RRC0P7 14
#define HB_PULSE_SHAPE_RRC1P0 15

/* Receive width in kHz, with p for the decimal point; Auto leaves it to the radio. */
#define HB_RX_BW_AUTO 255
#define HB_RX_BW_3076 0
#define HB_RX_BW_2857 64
#define HB_RX_BW_2666 128
#define HB_RX_BW_2222 192
#define HB_RX_BW_1333 136
#define HB_RX_BW_1111 200
#define HB_RX_BW_888 144
#define HB_RX_BW_769 24
#define HB_RX_BW_740 208
#define HB_RX_BW_714 88
#define HB_RX_BW_666 152
#define HB_RX_BW_615 32
#define HB_RX_BW_571 96
#define HB_RX_BW_555 216
#define HB_RX_BW_533 160
#define HB_RX_BW_512 17
#define HB_RX_BW_476 81
#define HB_RX_BW_444 224
#define HB_RX_BW_384 25
#define HB_RX_BW_370 209
#define HB_RX_BW_357 89
#define HB_RX_BW_333 153
#define HB_RX_BW_307 33
#define HB_RX_BW_285 97
#define HB_RX_BW_277 217
#define HB_RX_BW_266 161
#define HB_RX_BW_256 18
#define HB_RX_BW_238 82
#define HB_RX_BW_222 225
#define HB_RX_BW_192 26
#define HB_RX_BW_185 210
#define HB_RX_BW_178 90
#define HB_RX_BW_166 154
#define HB_RX_BW_153 34
#define HB_RX_BW_142 98
#define HB_RX_BW_138 218
#define HB_RX_BW_133 162
#define HB_RX_BW_128 19
#define HB_RX_BW_119 83
#define HB_RX_BW_111 226
#define HB_RX_BW_96 27
#define HB_RX_BW_92 211
#define HB_RX_BW_89 91
#define HB_RX_BW_83 155
#define HB_RX_BW_76 35
#define HB_RX_BW_71 99
#define HB_RX_BW_69 219
#define HB_RX_BW_66 163
#define HB_RX_BW_64 20
#define HB_RX_BW_59 84
#define HB_RX_BW_55 227
#define HB_RX_BW_48 28
#define HB_RX_BW_46 212
#define HB_RX_BW_44 92
#define HB_RX_BW_41 156
#define HB_RX_BW_38 36
#define HB_RX_BW_35 100
#define HB_RX_BW_34 220
#define HB_RX_BW_33 164
#define HB_RX_BW_32 21
#define HB_RX_BW_29 85
#define HB_RX_BW_27 228
#define HB_RX_BW_24 29
#define HB_RX_BW_23 213
#define HB_RX_BW_22 93
#define HB_RX_BW_20 157
#define HB_RX_BW_19 37
#define HB_RX_BW_17 101
#define HB_RX_BW_16 165
#define HB_RX_BW_14 86
#define HB_RX_BW_13 229
#define HB_RX_BW_12 30
#define HB_RX_BW_11 94
#define HB_RX_BW_10 158
#define HB_RX_BW_9P6 38
#define HB_RX_BW_8P9 102
#define HB_RX_BW_8P7 222
#define HB_RX_BW_8P3 166
#define HB_RX_BW_8 23
#define HB_RX_BW_7P4 87
#define HB_RX_BW_6P9 230
#define HB_RX_BW_6 31
#define HB_RX_BW_5P8 215
#define HB_RX_BW_5P6 95
#define HB_RX_BW_5P2 159
#define HB_RX_BW_4P8 39
#define HB_RX_BW_4P5 103
#define HB_RX_BW_4P3 223
#define HB_RX_BW_4P2 167
#define HB_RX_BW_3P5 231

/* How much preamble counts as detected; with None the sync word alone does, and no interrupt tells of a preamble. */
#define HB_PBL_LEN_DETECT_NONE 0
#define HB_PBL_LEN_DETECT_LEN8_BITS 8
#define HB_PBL_LEN_DETECT_LEN16_BITS 16
#define HB_PBL_LEN_DETECT_LEN24_BITS 24
#define HB_PBL_LEN_DETECT_LEN32_BITS 32

/* Unit of the payload's length. */
#define HB_PLD_LEN_UNIT_BYTES 0
#define HB_PLD_LEN_UNIT_BITS 1

/* Which addresses are compared; a packet for another one is not received. */
#define HB_ADDR_COMP_OFF 0
#define HB_ADDR_COMP_NODE 1
#define HB_ADDR_COMP_NODE_BCAST 2

/* Whether a packet has a fixed length, or tells it in so many bits. */
#define HB_FSK_PKT_FORMAT_FIXED_LENGTH 0
#define HB_FSK_PKT_FORMAT_VARIABLE8BIT 1
#define HB_FSK_PKT_FORMAT_VARIABLE9BIT 2
#define HB_FSK_PKT_FORMAT_VARIABLE16BIT 3

/* Length of the CRC in bytes, and whether it is inverted. */
#define HB_CRC_OFF 0
#define HB_CRC_1_BYTE 1
#define HB_CRC_2_BYTE 2
#define HB_CRC_3_BYTE 3
#define HB_CRC_4_BYTE 4
#define HB_CRC_1_BYTE_INV 9
#define HB_CRC_2_BYTE_INV 10
#define HB_CRC_3_BYTE_INV 11
#define HB_CRC_4_BYTE_INV 12

/* Whose whitening an FSK packet follows. */
#define HB_WHITEN_TYPE_SX126X_LR11XX 0
#define HB_WHITEN_TYPE_SX128X 1

/* Which bit of the sync word goes first over the air; MsbFirst is that of SX126x, LR11xx and SX1280. */
#define HB_BIT_ORDER_LSB_FIRST 0
#define HB_BIT_ORDER_MSB_FIRST 1

/* Input of the receiver: low or high frequency. */
#define HB_RX_PATH_LF_PATH 0
#define HB_RX_PATH_HF_PATH 1

/* Boost of the receiver. */
#define HB_RX_BOOST_OFF 0
#define HB_RX_BOOST_B1 1
#define HB_RX_BOOST_B2 2
#define HB_RX_BOOST_B3 3
#define HB_RX_BOOST_B4 4
#define HB_RX_BOOST_B5 5
#define HB_RX_BOOST_B6 6
#define HB_RX_BOOST_MAX 7

/* Power amplifier: low or high frequency. */
#define HB_PA_SEL_LF_PA 0
#define HB_PA_SEL_HF_PA 1

/* Mode of the low frequency power amplifier. */
#define HB_PA_LF_MODE_FSM 0
#define HB_PA_LF_MODE_FDM 1
#define HB_PA_LF_MODE_HSM_RFO1 2
#define HB_PA_LF_MODE_HSM_RFO2 3

/* When the radio turns by itself. */
#define HB_AUTO_TXRX_MODE_DISABLE 0
#define HB_AUTO_TXRX_MODE_ALWAYS 1
#define HB_AUTO_TXRX_MODE_RX_OK 2

/* Which of three time stamps. */
#define HB_TIMESTAMP_INDEX_0 0
#define HB_TIMESTAMP_INDEX_1 1
#define HB_TIMESTAMP_INDEX_2 2

/* The event that a time stamp marks. */
#define HB_TIMESTAMP_SOURCE_NONE 0
#define HB_TIMESTAMP_SOURCE_TX_DONE 1
#define HB_TIMESTAMP_SOURCE_RX_DONE 2
#define HB_TIMESTAMP_SOURCE_SYNC 3
#define HB_TIMESTAMP_SOURCE_HEADER 4

/* What follows a channel activity detection of other packet types than LoRa. */
#define HB_CAD_EXIT_MODE_FALLBACK 0
#define HB_CAD_EXIT_MODE_TX 1
#define HB_CAD_EXIT_MODE_RX 2
/* end: codes */

/* ---- frames */

/* A frame: its first len bytes, zeros behind them. On a refusal len and bytes are 0. */
typedef struct hb_frame {
    uint32_t refusal, place, len;
    uint8_t bytes[HB_FRAME_MAX];
} hb_frame;

/* The frame of a kind for its arguments, as they stand at the kind's constant. A number is cut to its bits, and arguments that share bits are
 * ORed, as the radio's Rust driver does. Refuses 13, 6: no such kind; an argument that is missing, surplus, no code, or neither 1 nor 0. */
hb_frame hb_plain(uint64_t kind, const uint64_t *args, size_t n);

/* The same, but an argument outside its range is refused too. Such a frame decodes to the same kind and arguments. Refuses 13, 6. */
hb_frame hb_checked(uint64_t kind, const uint64_t *args, size_t n);

/* A frame's kind and its first count arguments, zeros behind them. On a refusal kind, count and args are 0. */
typedef struct hb_decoded {
    uint32_t refusal, place, kind, count;
    uint64_t args[HB_ARGS_MAX];
} hb_decoded;

/* What a frame says. Refuses 1, 2, 3, 4, 5. */
hb_decoded hb_decode(const uint8_t *frame, size_t len);

/* ---- the settings book: the last frame of each setting, in order of first entry, in a buffer of HB_BOOK_MIN to HB_BOOK_MAX bytes. One of
 * HB_BOOK_ALL bytes never lacks room. Where two kinds are one setting in two forms, as is said at their constants, a book holds one of the two;
 * bytes from elsewhere that hold both are refused by 16, by every call but hb_book_make. */

/* A call's answer: value is the bytes written where a call writes, and else 0; for a list of banks it is how many there are,
 * and for the locker profile the first broken rule. */
typedef struct hb_answer {
    uint32_t refusal, place;
    uint64_t value;
} hb_answer;

/* Makes an empty book, whatever bytes stood there. Refuses 11. */
hb_answer hb_book_make(uint8_t *book, size_t len);

/* Puts a setting's frame in the place of the one held, be that of this form or of the other, or behind all others. Room is judged on the
 * frames after the put: a shorter form always fits where the longer one stood. Refuses 11, 10, 16, 1, 2, 3, 4, 5, 13, 8. */
hb_answer hb_book_put(uint8_t *book, size_t len, const uint8_t *frame, size_t frame_len);

/* Takes a kind's frame out; its room is free. 9 also where only the other form is held. Refuses 11, 10, 16, 13, 9. */
hb_answer hb_book_remove(uint8_t *book, size_t len, uint64_t kind);

/* Writes a kind's frame, at most HB_FRAME_MAX bytes, to the front of out, and keeps the rest of it. 9 also where only the other form is held.
 * Refuses 11, 10, 16, 13, 9, 12. */
hb_answer hb_book_ask(const uint8_t *book, size_t len, uint64_t kind, uint8_t *out, size_t out_len);

/* Takes every frame out. Refuses 11, 10, 16. */
hb_answer hb_book_clear(uint8_t *book, size_t len);

/* Writes all frames, at most HB_REPLAY_MAX bytes, to the front of out as a reel, and keeps the rest of it. Refuses 11, 10, 16, 12. */
hb_answer hb_book_replay(const uint8_t *book, size_t len, uint8_t *out, size_t out_len);

/* ---- a book that two sides share, 1 and 2. The owner table beside it has HB_SETTINGS bytes, one for each slot: the side whose setting it is.
 * Both forms of a setting have one owner. quota1 and quota2 are the bytes of frames that each side may hold, together at most the book's length
 * less HB_BOOK_MIN. caller is the side that calls. Each acts on its own settings alone, as on a book of its own with room for its quota: nothing
 * that it is told depends on what the other does.
 *
 * A caller owes one thing more, which the library cannot see: table and quotas stay the same for the book's life. The calls of the whole book
 * may go on beside; hb_book_ask and hb_book_replay show both sides, and what one of the others writes does show in what a side is told.
 *
 * 17 comes before a put decodes its frame: the table has not HB_SETTINGS entries, an owner or the caller is neither 1 nor 2, two forms of a
 * setting have two owners, the quotas do not fit the book, or a side holds more than its quota. 18 comes whether the other side holds that kind
 * or not. */

/* from commands.json: slots */
/* The slots of the kinds: 1 to 7 have 0 to 6, 11 to 21 have 7 to 17, 24 to 28 have 18 to 22, 31 has 23, 33 to 35 have 24 to 26, 38 and 39
 * have 27 and 28. */
/* end: slots */

/* Puts a frame of the side's settings as hb_book_put does, but the room is the side's own: 8 where its frames after the put would exceed its
 * quota. Refuses 11, 10, 16, 17, 1, 2, 3, 4, 5, 13, 18, 8. */
hb_answer hb_side_put(uint8_t *book, size_t len, const uint8_t *owners, size_t owners_len, uint64_t quota1, uint64_t quota2, uint64_t caller,
    const uint8_t *frame, size_t frame_len);

/* Takes the frame of a kind of the side out, as hb_book_remove does. Refuses 11, 10, 16, 17, 13, 18, 9. */
hb_answer hb_side_remove(uint8_t *book, size_t len, const uint8_t *owners, size_t owners_len, uint64_t quota1, uint64_t quota2, uint64_t caller,
    uint64_t kind);

/* Writes the frame of a kind of the side, as hb_book_ask does. Refuses 11, 10, 16, 17, 13, 18, 9, 12. */
hb_answer hb_side_ask(const uint8_t *book, size_t len, const uint8_t *owners, size_t owners_len, uint64_t quota1, uint64_t quota2, uint64_t caller,
    uint64_t kind, uint8_t *out, size_t out_len);

/* Takes every frame of the side out; the other side's stay, in their order. Refuses 11, 10, 16, 17. */
hb_answer hb_side_clear(uint8_t *book, size_t len, const uint8_t *owners, size_t owners_len, uint64_t quota1, uint64_t quota2, uint64_t caller);

/* Writes the side's own frames to the front of out as a reel, in order of first entry, and keeps the rest of it. Refuses 11, 10, 16, 17, 12. */
hb_answer hb_side_replay(const uint8_t *book, size_t len, const uint8_t *owners, size_t owners_len, uint64_t quota1, uint64_t quota2, uint64_t caller,
    uint8_t *out, size_t out_len);

/* ---- what the radio sends */

/* from commands.json: status */
/* cmd: bits 11-9. How the last command went. */
#define HB_CMD_FAIL 0 /* it could not be done */
#define HB_CMD_P_ERR 1 /* its opcode or its parameters are wrong */
#define HB_CMD_OK 2 /* it succeeded */
#define HB_CMD_DATA 3 /* it succeeded, and data follow */
#define HB_CMD_UNKNOWN 8 /* 4 to 7 in these bits */

/* reset_src: bits 7-4. What reset the radio last. */
#define HB_RESET_CLEARED 0 /* nothing since it was last cleared */
#define HB_RESET_ANALOG 1 /* the analog part */
#define HB_RESET_EXTERNAL 2 /* the reset pin */
#define HB_RESET_WATCHDOG 4 /* the watchdog */
#define HB_RESET_IOCD 5 /* the IOCD */
#define HB_RESET_RTC 6 /* the real time clock */
#define HB_RESET_UNKNOWN 16 /* 3, or 7 to 15 in these bits */

/* chip_mode: bits 2-0. What the radio is doing. */
#define HB_CHIP_MODE_SLEEP 0 /* asleep */
#define HB_CHIP_MODE_RC 1 /* standby on the RC oscillator */
#define HB_CHIP_MODE_XOSC 2 /* standby on the crystal */
#define HB_CHIP_MODE_FS 3 /* frequency synthesis */
#define HB_CHIP_MODE_RX 4 /* receiving */
#define HB_CHIP_MODE_TX 5 /* transmitting */
#define HB_CHIP_MODE_UNKNOWN 8 /* 6 or 7 in these bits */
/* end: status */

/* The status word, high byte first, and what its bits say: irq is bit 8, an interrupt is pending. ok is true for HB_CMD_OK and for
 * HB_CMD_DATA: the last command succeeded. */
typedef struct hb_status_t {
    uint16_t value;
    bool irq, ok;
    uint32_t cmd, reset_src, chip_mode;
} hb_status_t;

/* The first two bytes; one that is missing is 0. Refuses nothing. A response's status can be read by it too. */
hb_status_t hb_status(const uint8_t *bytes, size_t len);

/* The raised interrupts of the first four bytes, one bit each; a byte that is missing is 0. Refuses nothing. */
uint32_t hb_intr(const uint8_t *bytes, size_t len);

/* from commands.json: interrupts */
#define HB_IRQ_RX_FIFO UINT32_C(0x00000001) /* The receive FIFO has reached its threshold. */
#define HB_IRQ_TX_FIFO UINT32_C(0x00000002) /* The transmit FIFO has reached its threshold. */
#define HB_IRQ_RNG_REQ_VLD UINT32_C(0x00000004) /* The slave has received a valid ranging request. */
#define HB_IRQ_TX_TIMESTAMP UINT32_C(0x00000008) /* A sent packet has ended: for time stamps only, not for a change of mode. */
#define HB_IRQ_RX_TIMESTAMP UINT32_C(0x00000010) /* A received packet has ended: for time stamps only, not for a change of mode. */
#define HB_IRQ_PREAMBLE_DETECTED UINT32_C(0x00000020) /* A preamble is detected. */
#define HB_IRQ_HEADER_VALID UINT32_C(0x00000040) /* A LoRa header is detected, or a sync word is valid. */
#define HB_IRQ_CAD_DETECTED UINT32_C(0x00000080) /* Activity is detected on the channel. */
#define HB_IRQ_LORA_HDR_TIMESTAMP UINT32_C(0x00000100) /* The precise time of a LoRa header; in implicit mode, of eight symbols of the payload. */
#define HB_IRQ_HEADER_ERR UINT32_C(0x00000200) /* The CRC of a LoRa header is wrong. */
#define HB_IRQ_EOL UINT32_C(0x00000400) /* The end of life. */
#define HB_IRQ_PA UINT32_C(0x00000800) /* The power amplifier met too much current or voltage. */
#define HB_IRQ_LORA_TX_RX_HOP UINT32_C(0x00001000) /* A LoRa hop within a packet. */
#define HB_IRQ_SYNC_FAIL UINT32_C(0x00002000) /* The sync word did not match after a detection (for debugging). */
#define HB_IRQ_LORA_SYMBOL_END UINT32_C(0x00004000) /* A LoRa symbol has ended (for debugging). */
#define HB_IRQ_LORA_TIMESTAMP_STAT UINT32_C(0x00008000) /* The time stamp register has new statistics (for debugging). */
#define HB_IRQ_ERROR UINT32_C(0x00010000) /* An error other than one of a command. */
#define HB_IRQ_CMD UINT32_C(0x00020000) /* A command of the host failed or was wrong. */
#define HB_IRQ_RX_DONE UINT32_C(0x00040000) /* A packet is received. */
#define HB_IRQ_TX_DONE UINT32_C(0x00080000) /* A packet is sent. */
#define HB_IRQ_CAD_DONE UINT32_C(0x00100000) /* The detection of channel activity is over. */
#define HB_IRQ_TIMEOUT UINT32_C(0x00200000) /* Receiving or sending took too long. */
#define HB_IRQ_CRC_ERROR UINT32_C(0x00400000) /* A packet was received with a wrong CRC. */
#define HB_IRQ_LEN_ERROR UINT32_C(0x00800000) /* A packet was received with a wrong length. */
#define HB_IRQ_ADDR_ERROR UINT32_C(0x01000000) /* A packet was received for another address. */
#define HB_IRQ_FHSS UINT32_C(0x02000000) /* A ramp-up of a hop within a packet is done. */
#define HB_IRQ_INTER_PACKET1 UINT32_C(0x04000000) /* The host can load a new table of frequencies. */
#define HB_IRQ_INTER_PACKET2 UINT32_C(0x08000000) /* The host can load a new payload. */
#define HB_IRQ_RNG_RESP_DONE UINT32_C(0x10000000) /* The slave has sent its ranging response. */
#define HB_IRQ_RNG_REQ_DIS UINT32_C(0x20000000) /* A ranging request is discarded: its address does not match. */
#define HB_IRQ_RNG_EXCH_VLD UINT32_C(0x40000000) /* The master has received a valid ranging response. */
#define HB_IRQ_RNG_TIMEOUT UINT32_C(0x80000000) /* The master has received no ranging response. */
/* end: interrupts */

/* A response: its fields with the status word, or refusal 7 where the length is another, and zeros. A level (rssi..) counts half dBm
 * downward (hb_level_text), a ratio (snr..) quarter dB (hb_snr_text). Counters have 16 bits and begin again at 0 (hb_counter_difference). */

/* To kind HB_GET_LORA_RX_STATS, 12 bytes. Counts packets received, of them with a wrong CRC and with a wrong header, preambles detected and
 * false synchronizations. Refuses 7. */
typedef struct hb_lora_rx_stats_t {
    uint32_t refusal;
    uint16_t status, pkt_rx, crc_error, header_error, detection, false_sync;
} hb_lora_rx_stats_t;
hb_lora_rx_stats_t hb_lora_rx_stats(const uint8_t *bytes, size_t len);

/* To kind HB_GET_LORA_PACKET_STATUS, 8 bytes. crc: whether the packet has a CRC; coding_rate: one of HB_LORA_CR_..; both as the packet's header
 * says, or as was set where it has none. pkt_length: in bytes. rssi_pkt: of the packet on average; rssi_signal_pkt: of the signal after
 * despreading. detector: a bit for each that received the packet, 1 the main one, 2, 4 and 8 the side detectors. Refuses 7. */
typedef struct hb_lora_packet_status_t {
    uint32_t refusal;
    uint16_t status;
    bool crc;
    uint8_t coding_rate, pkt_length;
    int8_t snr_pkt;
    uint16_t rssi_pkt, rssi_signal_pkt;
    uint8_t detector;
} hb_lora_packet_status_t;
hb_lora_packet_status_t hb_lora_packet_status(const uint8_t *bytes, size_t len);

/* To kind HB_GET_FSK_RX_STATS, 16 bytes. Counts packets received, of them with a wrong CRC and with a wrong length, preambles detected, sync
 * words found and failed, and time-outs. Refuses 7. */
typedef struct hb_fsk_rx_stats_t {
    uint32_t refusal;
    uint16_t status, pkt_rx, crc_error, len_error, pbl_det, sync_ok, sync_fail, timeout;
} hb_fsk_rx_stats_t;
hb_fsk_rx_stats_t hb_fsk_rx_stats(const uint8_t *bytes, size_t len);

/* To kind HB_GET_FSK_PACKET_STATUS, 8 bytes. pkt_len: in bytes, with all that the radio adds, such as the CRC. rssi_avg: of the packet on
 * average; rssi_sync: at the sync word. addr_match_..: whether the packet was for the address of all, and for the node's own. lqi: the link
 * quality in quarter dB. Refuses 7. */
typedef struct hb_fsk_packet_status_t {
    uint32_t refusal;
    uint16_t status, pkt_len, rssi_avg, rssi_sync;
    bool addr_match_bcast, addr_match_node;
    uint8_t lqi;
} hb_fsk_packet_status_t;
hb_fsk_packet_status_t hb_fsk_packet_status(const uint8_t *bytes, size_t len);

/* To opcode 02 0B, 4 bytes. rssi: the level at this moment. Refuses 7. */
typedef struct hb_rssi_inst_t {
    uint32_t refusal;
    uint16_t status, rssi;
} hb_rssi_inst_t;
hb_rssi_inst_t hb_rssi_inst(const uint8_t *bytes, size_t len);

/* To opcode 02 17, 6 bytes. timestamp: the time from the event to the request, in ticks of the high frequency clock; wrong if the radio
 * slept in between. Refuses 7. */
typedef struct hb_timestamp_value_t {
    uint32_t refusal;
    uint16_t status;
    uint32_t timestamp;
} hb_timestamp_value_t;
hb_timestamp_value_t hb_timestamp_value(const uint8_t *bytes, size_t len);

/* To opcode 02 19, 6 bytes: the least, the greatest and the average level that HB_SET_CCA measured. Refuses 7. */
typedef struct hb_cca_result_t {
    uint32_t refusal;
    uint16_t status, rssi_min, rssi_max, rssi_avg;
} hb_cca_result_t;
hb_cca_result_t hb_cca_result(const uint8_t *bytes, size_t len);

/* ---- a recorded day, played again on a fresh book */

/* Why the playback ended, the counts, and the last reading of each request. records: played in all, before a fault if there is one. accepted
 * and refused[n]: puts, refused ones by their number (1 to 5 and 8; the others stay 0). skipped: answers that are no reading. A reading is
 * zeros where its has_.. is false. */
typedef struct hb_day {
    uint32_t refusal;
    uint64_t place, records, accepted, skipped, refused[9];
    bool has_lora_rx_stats, has_lora_packet_status, has_fsk_rx_stats, has_fsk_packet_status;
    hb_lora_rx_stats_t lora_rx_stats;
    hb_lora_packet_status_t lora_packet_status;
    hb_fsk_rx_stats_t fsk_rx_stats;
    hb_fsk_packet_status_t fsk_packet_status;
} hb_day;

/* Makes a fresh book in the buffer, whatever stood there, and plays a trace on it: every command sent is put unless it is an action, and every
 * answer received is read as that of the latest command, if that was HB_GET_LORA_RX_STATS, HB_GET_LORA_PACKET_STATUS, HB_GET_FSK_RX_STATS or
 * HB_GET_FSK_PACKET_STATUS and the length is right. Refuses 11, 15. What the records before a fault did stays: 15 is the one refusal that
 * alters a lent buffer, and that has more in its answer than a place. */
hb_day hb_play(const uint8_t *trace, size_t len, uint8_t *book, size_t book_len);

/* ---- readings */

/* A level in dBm to the front of out, exactly, as -90.5 for 181 half dBm; HB_LEVEL_TEXT_MAX bytes take any.
 * No zero byte follows, and the rest of out is kept. Refuses 12. */
hb_answer hb_level_text(uint16_t half_dbm, uint8_t *out, size_t out_len);

/* A signal-to-noise ratio in dB to the front of out, exactly, as -1.75 for -7 quarter dB; HB_SNR_TEXT_MAX bytes
 * take any. No zero byte follows, and the rest of out is kept. Refuses 12. */
hb_answer hb_snr_text(int8_t quarter_db, uint8_t *out, size_t out_len);

/* How far a 16-bit counter went on between two readings, also where it went past 65535 once. Refuses nothing. */
uint16_t hb_counter_difference(uint16_t earlier, uint16_t later);

/* The width of a code HB_LORA_BW_.. in Hz, rounded down; 0 for a code above 15. Refuses nothing. */
uint32_t hb_lora_bw_hz(uint8_t code);

/* The name of a code HB_RX_BW_.. in tenths of kHz; 0 for a number that is none, and for HB_RX_BW_AUTO. Refuses nothing. */
uint16_t hb_rx_bw_tenths(uint8_t code);

/* ---- the receive widths of banks: for each bank a need in whole Hz, any number, and a code HB_RX_BW_... The exact width of a code is 40000000 Hz
 * over m d 2^e, where m is 13, 14, 15 or 18 by its bits 7-6, d is its bits 5-3 plus 1, and e is its bits 2-0; its name decides nothing. A code is right
 * for a need if it is listed and not HB_RX_BW_AUTO, its width is at least the need, and no listed width that is so is smaller: there is one, or
 * none where the need is above 3076923. A list has 1 to HB_BANKS_MAX banks. */

/* Whether each code is right for its bank's need; value is how many banks there are. 21 also where the lists differ in length. Then bank by bank,
 * at the first such bank, which is the place: 19 where no listed width is at least its need, and else 20 where its code is not the right one.
 * Refuses 21, 19, 20. */
hb_answer hb_widths_check(const uint64_t *needs, size_t n, const uint8_t *codes, size_t m);

/* Writes the right code for each bank's need; value is how many. hb_widths_check takes them, and takes no others. 21 also where codes has not the
 * length of needs. Refuses 21, 19. */
hb_answer hb_widths_find(const uint64_t *needs, size_t n, uint8_t *codes, size_t m);

/* ---- the locker profile: what banks may use. Three settings of a book are held to rules: kinds 1, 2 and 4, which are
 * HB_SET_LORA_MODULATION_PARAMS, HB_SET_LORA_PACKET_PARAMS and HB_SET_LORA_SYNCWORD. All others are free. The rules are looked at in the order of
 * their numbers, whatever kind they are about. A symbol lasts 2^sf over the exact width, so 16 ms or longer for HB_SF_11 and HB_SF_12 at
 * HB_LORA_BW_125 and for HB_SF_12 at HB_LORA_BW_250, and for no other pair that the first two rules permit. */

/* from commands.json: rules */
#define HB_RULE_SPREADING_FACTOR 1 /* sf of kind 1 is HB_SF_7 to HB_SF_12 */
#define HB_RULE_WIDTH 2 /* lora_bw of kind 1 is HB_LORA_BW_125 or HB_LORA_BW_250 */
#define HB_RULE_RATE 3 /* lora_cr of kind 1 is one of the four rates with short interleaving, HB_LORA_CR_CR1_HAM45_SI to HB_LORA_CR_CR4_HAM12_SI */
#define HB_RULE_HEADER 4 /* header_type of kind 2 is HB_HEADER_TYPE_EXPLICIT */
#define HB_RULE_CRC 5 /* crc_en of kind 2 is 1, a yes */
#define HB_RULE_SYNCWORD 6 /* syncword of kind 4 is 0x12 */
#define HB_RULE_OPTIMISATION 7 /* ldro of kind 1 is HB_LDRO_ON where a symbol lasts at least 16 ms, and HB_LDRO_OFF where it does not */
/* end: rules */

/* Whether the book keeps all rules: value is 0 if it does, and else the first that it breaks, HB_RULE_... A yes is refusal 0 and value 0: look at
 * refusal first, since value is 0 for a refused book too. 22 where a frame of kind 1, 2 or 4 is not held, whatever rules the others break.
 * Refuses 11, 10, 16, 22. */
hb_answer hb_profile(const uint8_t *book, size_t len);

/* ---- the controller of a bank: sends a book's frames, one at each step, and takes the status bytes that came back with each. A step is
 * hb_controller_send, whose bytes go out over the bus, and then hb_controller_hear. The status of a step judges the frame of the step before, so
 * the first judges nothing, and behind the last frame a final empty read judges that: a book of n frames is done or stopped within n + 1 steps.
 * Each call reads the book anew and never writes it; it refuses what hb_book_replay does, but 12, whatever the state is. */

/* Where the controller stands. outcome 0: running, count frames are sent and heard of; 1: done, with count 0; 2: stopped, for frame count, from 1, went
 * wrong; any other: ended. Any numbers may be handed in. A running state that counts more frames than the book has, or any where the book has no frame,
 * counts as ended, though its outcome is 0: that the work is over hb_sending says. What has ended comes back as it was given. */
typedef struct hb_controller {
    uint64_t outcome, count;
} hb_controller;

/* The state behind a call. Look at refusal first: where there is one, the state is the one given, and for a start 1 and 0. */
typedef struct hb_control {
    uint32_t refusal, place;
    hb_controller state;
} hb_control;

/* What a step sends: the first len bytes, zeros behind them. over is 1 where nothing is left to do; without a refusal, over 0 with len 0 is the final
 * empty read. On a refusal over, len and bytes are 0. */
typedef struct hb_sending {
    uint32_t refusal, place, over, len;
    uint8_t bytes[HB_FRAME_MAX];
} hb_sending;

/* The first state: running with no frame sent, and done for a book of no frames. Refuses 11, 10, 16. */
hb_control hb_controller_start(const uint8_t *book, size_t len);

/* What the step sends; the state stays. Refuses 11, 10, 16. */
hb_sending hb_controller_send(const uint8_t *book, size_t len, hb_controller state);

/* The state behind the step, by the status that came back with it: Fail, PErr and Unknown stop, Ok and Data go on. It has two bytes; one that is not
 * there counts as 0, and those behind them are not looked at. Refuses 11, 10, 16. */
hb_control hb_controller_hear(const uint8_t *book, size_t len, hb_controller state, const uint8_t *status, size_t status_len);

/* ---- reels: frames in a row, each behind a byte that says its length */

/* A step: the frame is the bytes from start up to end, and next is the place for the next step. ended is 1 at the reel's end. */
typedef struct hb_step {
    uint32_t refusal, ended;
    uint64_t start, end, next;
} hb_step;

/* The frame at a place; the first place is 0. Refuses 14. */
hb_step hb_reel_step(const uint8_t *reel, size_t len, uint64_t at);

/* The text of a reel to the front of out, a line for each frame. Its decimals are the frame's index from 0, its kind or 0, the refusal or 0,
 * the place, and the arguments. A cut frame is the last line, with refusal 14. HB_DUMP_MAX(len) bytes take any; the rest of out is kept.
 * Refuses 12. */
hb_answer hb_dump(const uint8_t *reel, size_t len, uint8_t *out, size_t out_len);

#ifdef __cplusplus
}
#endif

#endif
