#!/usr/bin/env python3
"""What gr-rds 3.10, GNU Radio's receiver of RDS, reads of packed bits: gnuradio_reader.py FILE

Prints the last text of each kind of its messages, as NUMBER,TEXT: 0 PI, 1 PS, 2 PTY, 3 flags, 4 RT, 5 CT, 6 AF.
"""
import sys

import pmt
import rds
from gnuradio import blocks, gr


class Last(gr.basic_block):
    """Keeps the last message of each kind."""

    def __init__(self):
        gr.basic_block.__init__(self, name="last", in_sig=None, out_sig=None)
        self.said = {}
        self.message_port_register_in(pmt.intern("in"))
        self.set_msg_handler(pmt.intern("in"), self.take)

    def take(self, message):
        self.said[pmt.to_long(pmt.tuple_ref(message, 0))] = pmt.symbol_to_string(pmt.tuple_ref(message, 1))


with open(sys.argv[1], "rb") as file:
    bits = [byte >> i & 1 for byte in file.read() for i in range(7, -1, -1)]
graph, source, last = gr.top_block(), blocks.vector_source_b(bits), Last()
decoder, parser = rds.decoder(False, False), rds.parser(False, False, 0)
graph.connect(source, decoder)
graph.msg_connect((decoder, "out"), (parser, "in"))
graph.msg_connect((parser, "out"), (last, "in"))
graph.run()
for kind, text in sorted(last.said.items()):
    print(f"{kind},{text}")
