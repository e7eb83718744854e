#!/usr/bin/env python3
"""How many groups GNU Radio with gr-rds 3.10 receives: gnuradio_receiver.py bits FILE, or gnuradio_receiver.py mpx FILE RATE

FILE has packed bits, or MPX as 32-bit floats. Prints a line of sixteen hex digits per group that gr-rds' decoder hands on. MPX goes through
blocks of GNU Radio: a channel filter at 57 kHz, a matched filter for biphase symbols, gain control, symbol synchronisation, and a
constellation receiver. The package gr-rds has no receiver of its own to compare with.
"""
import math
import sys

import numpy
import pmt
import rds
from gnuradio import analog, blocks, digital, filter, gr
from gnuradio.filter import firdes

SYMBOLS, PER_SYMBOL = 1187.5, 16
BASE = SYMBOLS * PER_SYMBOL


class Groups(gr.basic_block):
    """Prints the words of each group."""

    def __init__(self):
        gr.basic_block.__init__(self, name="groups", in_sig=None, out_sig=None)
        self.message_port_register_in(pmt.intern("in"))
        self.set_msg_handler(pmt.intern("in"), self.take)

    def take(self, message):
        print(bytes(pmt.u8vector_elements(pmt.cdr(message))[:8]).hex().upper())


def matched():
    """Two impulses of opposite sign, half a symbol apart, each as IEC 62106 shapes it."""
    shaped = firdes.root_raised_cosine(1, BASE, 2 * SYMBOLS, 1, 151)
    half = PER_SYMBOL // 2
    return [shaped[n] - shaped[n + half] for n in range(len(shaped) - half)]


def receiver(graph, samples, rate):
    """Bits of MPX."""
    decimation = 8
    channel = firdes.low_pass(1, rate, 3500, 1000)
    points = digital.constellation_bpsk().base()
    chain = [
        blocks.vector_source_f(samples.tolist()),
        filter.freq_xlating_fir_filter_fcc(decimation, channel, 57000, rate),
        filter.rational_resampler_ccc(int(BASE * 2), int(2 * rate / decimation), [], 0.4),
        filter.fir_filter_ccc(1, matched()),
        analog.agc_cc(2e-3, 0.585, 53),
        digital.symbol_sync_cc(
            digital.TED_ZERO_CROSSING, PER_SYMBOL, 0.01, 1, 1, 0.1, 1, points, digital.IR_MMSE_8TAP, 128, []
        ),
        digital.constellation_receiver_cb(points, 2 * math.pi / 100, -0.002, 0.002),
        digital.diff_decoder_bb(2),
    ]
    graph.connect(*chain)
    return chain[-1]


graph, form, path = gr.top_block(), sys.argv[1], sys.argv[2]
if form == "bits":
    last = blocks.vector_source_b(numpy.unpackbits(numpy.fromfile(path, "u1")).tolist())
else:
    last = receiver(graph, numpy.fromfile(path, "f4"), float(sys.argv[3]))
decoder, groups = rds.decoder(False, False), Groups()
graph.connect(last, decoder)
graph.msg_connect((decoder, "out"), (groups, "in"))
graph.run()
