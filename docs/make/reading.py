#!/usr/bin/env python3
"""reading.py [ROOT]: writes docs/READING.md, the record `Claims` with every definition that it rests on, to standard output.

1. The definitions are found from the sources: beginning with `Claims`, every name is followed to its declaration, through the `use` lines of its file, from
   crate to crate and through structs and enums of code, until only names of the toolchain's libraries are left. A name that is none of these ends the program.
2. They are put in reading order, file by file, and each stands after all that it uses; that is checked.
3. Above each stands what it renders of the papers, sentences or words of them that `document-01.md` and `document-02.md` have. A definition without such words
   ends the program, and so does an entry of the table below that is no definition of `Claims`, or that is no part of the papers.
4. Every quotation in a comment of the crates of definitions has to stand in the paper that it names: `Document 02, (iii): ".."` in that request, and where
   nothing is named, in document 01. No quotation is of words that the table OVERRULED has, or of a request that has not landed; tests/level says how many have.
5. Every sentence of document 01, but for its language forms, and of each request that has landed, is rendered by a definition, or the table ELSEWHERE says
   where it is kept, or it is overruled.
6. The first part is `reading-opening.md`, in which `@section TITLE@` becomes a link to that section and `@number TITLE@` its number. It has words for every
   field of `Claims`, and the edits that it tells a reader to try fit the sources.
7. The lines in which rt says that the crates are proved are taken from target/gate/rt-ci.log, where tests/run leaves what `rt ci` said.

What was counted goes to standard error.
"""
import re
import sys
import textwrap
from pathlib import Path

ROOT = Path(sys.argv[1] if len(sys.argv) > 1 else ".")
HERE = Path(__file__).resolve().parent
PROVED_IN = "claims"
LOG = "target/gate/rt-ci.log"
STATEMENT = ("Claims", "Claims")
DEMAND = "due_times"  # the field that the opening tells at length; it has every other in its table
PROOF = ("claims", "crates/claims/proofs/Claims.antt")
CRATES_OF_DEFINITIONS = ["model", "text", "schedule", "plan_model", "image_laws", "call_laws", "log_model", "log_laws", "claims"]
WIDTH = 120

# The sections of document 01, by a letter, and those whose sentences are all accounted for. A request of document 02 goes by its number. A passage is
# "X: first words", the whole sentence or point that begins so, or "X~ words", words inside one: "iii: Due-in 0 is" is a sentence of request (iii).
SECTIONS = {
    "C": "The cabinet and its neighbours",
    "T": "The course of one tick",
    "D": "The delay sum",
    "I": "The image",
    "Q": 'The questions, first "no" decides',
    "R": "The run book",
    "S": "The standing table",
    "E": "Counter examples, from a fresh cabinet",
    "W": "What a stranger may rely on",
    "F": "Which language form to use",
    "X": "Traps in this trade",
}
ACCOUNTED = "CTDIQRSEWX"
OWN = "No sentence of document 01: a word that it takes for granted."
FURTHER = "Beyond the sentences of the papers: a theorem of our own about what they define, or a part of one."

# File, title, and in the file's order: title, passages of the papers, definitions. The passages below FURTHER are those that come closest.
FILES = [
    ("model/specs/Limits.antt", "The figures", [
        ("Stations", ["C: A cabinet has N stations"], ["max_stations"]),
        ("Costs", ["C: An order has, for each station"], ["max_cost"]),
        ("Due-in", ["C: Its due-in is"], ["max_due_in"]),
        ("No due-in", ["iii: Due-in 0 is"], ["default_due_in"]),
        ("Live orders", ["C: At most 32 orders"], ["max_live"]),
        ("Formats", ["i: Formats are numbered"], ["max_format"]),
        ("The last tick", ["I~ clock at most 4,000,000,000", "Q: Due tick at most", "Q: Clock below"], ["last_tick"]),
        ("The last ticket", ["I~ next ticket (4), 0 when none is left"], ["last_ticket"]),
    ]),
    ("model/src/lib.rt", "A station's entry, an order's record, an order block", [
        ("The entry of a station", ["I: Then eight station entries"], ["Service"]),
        ("The record of a live order", ["I: Then 32 records", "I: A record holds"], ["Order"]),
        ("An order as it is offered", ["I: An order block is", "C~ for each station, a cost in ticks (1 to 6,000) and a rank"], ["Block"]),
    ]),
    ("model/specs/State.antt", "The state", [
        ("What an image says", ["I~ then N, live count, and a zero byte; clock (4 bytes); next ticket (4), 0 when none is left",
                                "I~ Then eight station entries", "I~ Then 32 records of 64 bytes, live ones first in ticket order"], ["State"]),
        ("Idle", ["I~ each station idle (0, 0)"], ["idle"]),
        ("A fresh cabinet", ["Q~ open gives zeros and a fresh image (clock 0, next ticket 1)", "C: Tickets run from 1"], ["fresh"]),
    ]),
    ("model/specs/Lists.antt", "Words about lists and tests", [
        ("Ranges and zero", ["C~ N stations, 1 to 8", "I~ zero bytes and unused records zero"], ["within", "is_zero"]),
        ("The entry of a station, and a part of a list", ["C~ for each station, a cost in ticks (1 to 6,000) and a rank", "I~ Bytes 0 to 2"], ["at", "part"]),
        ("A quotient rounded up", ["i~ long side divided by speed, rounded up", "ii~ (R + deadline of i - 1) / period of i, rounded up"], ["rounded_up"]),
        ("Added up, the largest, the larger of two", ["D~ the largest station cost of each member, added up", "D~ the largest cost any member has there"],
         ["total", "largest", "larger"]),
        ("Lists one after the other", OWN, ["concat"]),
        ("Tests over a list", OWN, ["all", "any", "has", "same"]),
        ("The entries that pass a test", OWN, ["only"]),
        ("Station by station", ["C~ for each station"], ["numbered", "all_stations"]),
        ("So many in a row", OWN, ["upward"]),
    ]),
    ("model/specs/Tick.antt", "The course of one tick", [
        ("What it sees of a live order", ["C: An order has, for each station"], ["View"]),
        ("What decides at a station", ["T: Each idle station", "v: Equal ranks should go", "C~ a rank (0 to 255, the smaller goes first)"], ["key_at"]),
        ("Who goes before whom", ["T~ the one with the smallest rank there", "v: Equal ranks should go"], ["before", "precedes"]),
        ("Who goes first at a station", ["T~ the one with the smallest rank there"], ["better", "first"]),
        ("Step 1, station by station", ["T: Each idle station", "R~ a start sets the ticks to go to the cost there"], ["entry_of", "start_at", "start_each"]),
        ("Step 2, at a station", ["T~ each order in service has one tick less to go"], ["one_less"]),
        ("Step 3, of an order and of a station", ["T: An order with nothing to go", "C~ visited 1, 2, .. N by every order"], ["station_after", "vacate"]),
        ("The ticket out", ["Q~ advance gives the ticket out or 0, the new clock, and 0"], ["ticket_out"]),
        ("A record, as the tick sees it, and at another station", ["T~ waits at the next"], ["view", "move_to"]),
        ("Step 1 on a state", ["T: Each idle station"], ["starts"]),
        ("Step 2 on a state", ["T: The clock goes up by one"], ["tick"]),
        ("Step 3 on a state", ["T: An order with nothing to go"], ["leave"]),
        ("The three steps in order", ["T: Advance does this", "Q~ advance gives the ticket out or 0"], ["advance", "advance_out"]),
    ]),
    ("model/specs/DelayBound.antt", "The delay sum", [
        ("The members' largest costs, added up", ["D~ Delay sum of T = the largest station cost of each member, added up"], ["sum_of"]),
        ("The largest cost at each station", ["D~ the largest cost any member has there"], ["maxima_of"]),
        ("The delay sum", ["D~ plus, for each station before N, the largest cost any member has there", "D: With N = 1", "X: Adding the last",
                             "v~ Delay sums are untouched"], ["delay_bound"]),
        ("On time", ["D: T is on time"], ["bound_tick", "on_time"]),
        ("Margin", ["D: Margin is"], ["margin"]),
    ]),
    ("model/specs/Bytes.antt", "Numbers as bytes", [
        ("Reading a number", ["C: Numbers are decimal"], ["byte", "half", "word"]),
        ("Reading eight numbers", ["I~ eight ranks (1 each); eight costs (2 each)"], ["eight_bytes", "eight_halves"]),
        ("Writing a number", ["C: Numbers are decimal"], ["one_byte", "two_bytes", "four_bytes"]),
        ("Writing a signed number", ["Q~ margin (signed), 4 bytes each"], ["bits32"]),
    ]),
    ("model/specs/Layout.antt", "The places of the fields", [
        ("The header of the image", ["I: 2,128 bytes", "I: Bytes 0 to 2"],
         ["image_size", "mark", "version", "version_at", "station_count_at", "live_count_at", "header_zero_at", "clock_at", "next_at"]),
        ("A station's entry", ["I: Then eight station entries"], ["services_at", "service_size", "served_at", "left_at", "service_zero_at"]),
        ("A record", ["I: Then 32 records"], ["records_at", "record_size", "ticket_at", "accepted_at", "due_at", "sum_at", "station_at", "station_zero_at", "ranks_at",
                                              "costs_at", "maxima_at", "record_zero_at"]),
        ("The bytes of one entry, of one record", ["I~ Then eight station entries of 8 bytes", "I~ Then 32 records of 64 bytes"],
         ["service_part", "record_part"]),
        ("An order block", ["I: An order block is"], ["block_size", "block_due_in_at", "block_ranks_at", "block_costs_at"]),
        ("A station sheet", ["i~ a station sheet of 32 bytes: eight fixed ticks, then eight speeds in millimetres per tick, 2 bytes each"],
         ["sheet_size", "sheet_fixed_at", "sheet_speeds_at"]),
        ("The reply", ["Q: The reply holds"], ["reply_size", "reply_ticket_at", "reply_tick_at", "reply_margin_at"]),
    ]),
    ("model/specs/Image.antt", "The image", [
        ("Mark and version", ["Q: Mark and version", "I~ Bytes 0 to 2 are the mark `WMC`; 3 to 4 the version, 1"], ["marked"]),
        ("The live count", ["I~ then N, live count"], ["live_count"]),
        ("A station's entry and its bytes", ["I: Then eight station entries"], ["service_of", "service_bytes"]),
        ("A record and its bytes", ["I~ ticket, acceptance tick, due tick, sum of the company's largest costs (4 each); station (1); zero (3); eight ranks (1"
                                    " each); eight costs (2 each); the company's largest cost at each station (2 each); zero (4)"], ["order_of", "order_bytes"]),
        ("All entries, and so many records", ["I~ Then eight station entries", "I~ Then 32 records of 64 bytes, live ones first in ticket order"],
         ["services_of", "orders_of"]),
        ("What an image says", ["I: Bytes 0 to 2", "I~ live ones first in ticket order, the rest all zero"], ["decode"]),
        ("The image that says it", ["I: Bytes 0 to 2", "I~ live ones first in ticket order, the rest all zero"], ["encode"]),
    ]),
    ("model/specs/Soundness.antt", "Soundness", [
        ("Number of stations", ["I~ N 1 to 8"], ["station_count_in_range"]),
        ("Live count", ["I~ live at most 32"], ["live_count_in_range"]),
        ("Clock", ["I~ clock at most 4,000,000,000"], ["clock_in_range"]),
        ("Zero bytes", ["I~ zero bytes and unused records zero"], ["zero_bytes", "zero_bytes_zero"]),
        ("Unused records", ["I~ zero bytes and unused records zero"], ["unused_records_zero"]),
        ("Tickets", ["I~ live tickets at least 1, rising, and below the next ticket where that is not 0"], ["rising", "tickets_in_order"]),
        ("Acceptance", ["I~ acceptance at most the clock"], ["accepted_by_now"]),
        ("Due tick", ["I~ due tick 1 to 60,000 after acceptance and at most 4,000,000,000"], ["due_in_range"]),
        ("Station", ["I~ station 1 to N"], ["station_in_use"]),
        ("Costs", ["I~ costs in range"], ["costs_in_range"]),
        ("Maxima", ["I~ each maximum at least the own cost and at most 6,000"], ["maxima_in_range"]),
        ("Sum, and on time", ["I~ the sum at least the own largest cost; the order on time"], ["sum_in_range"]),
        ("Fields beyond N", ["I~ fields beyond N zero"], ["zero_beyond", "record_zero_beyond", "is_idle", "fields_beyond_zero"]),
        ("Stations", ["I~ each station idle (0, 0) or serving a live order that is at it, with ticks to go from 1 to its cost there"],
         ["serves", "services_in_order"]),
        ("The clauses in turn", ["I: Sound means", "Q: Image sound?"], ["clauses", "sound"]),
    ]),
    ("model/specs/Questions.antt", "Questions and reply", [
        ("A question, and the first \"no\"", ["Q: Is the lent reply"], ["Question", "first_no"]),
        ("What the reply holds", ["Q: The reply holds"], ["Answer", "reply_bytes"]),
        ("Zeros", ["Q: Declined", "Q~ open gives zeros"], ["zeros"]),
    ]),
    ("model/specs/Admission.antt", "An offer", [
        ("An order block read, and its bytes", ["I: An order block is"], ["block_of", "block_bytes"]),
        ("The due tick", ["C: Due tick =", "iii: Due-in 0 is"], ["due_of"]),
        ("The newcomer's record", ["D: Offer tries the sums", "D: For an accepted order T", "R: It waits at station 1"], ["arrival"]),
        ("A live order that the newcomer joins", ["D: For an accepted order T", "D: Offer tries the sums"], ["joined_by", "joined_live"]),
        ("The accepted state", ["C: Tickets run from 1", "I~ next ticket (4), 0 when none is left"], ["accept"]),
        ("The smallest margin", ["Q~ the smallest margin over newcomer and live orders"], ["smallest", "smallest_margin"]),
        ("Question 5", ["Q: Order block 28 bytes?"], ["block_length_question"]),
        ("Questions 6 and 7", ["Q: Costs of stations", "Q: Due-in 0 to"], ["block_questions"]),
        ("Questions 8 to 12", ["Q: Due tick at most", "Q: A ticket left?", "Q: Fewer than 32", "Q: Newcomer on time?", "Q: Every live order still"],
         ["state_questions"]),
        ("Questions 5 to 12", ["Q~ quote and offer 1 to 12"], ["order_questions"]),
        ("What offer gives", ["Q: Done: open gives", "Q: Declined"], ["offer_answer"]),
        ("What quote gives", ["D: Quote gives"], ["quote_answer"]),
    ]),
    ("model/specs/Formats.antt", "Order by paper format", [
        ("What it gives", ["i: An order may give"], ["FormatOrder", "fixed_ticks", "speeds"]),
        ("The long sides", ["i: The long sides come", "i: Formats are numbered"], ["long_sides", "long_side"]),
        ("The rule of the table", [FURTHER, "i~ a table of ISO 216 sizes"], ["halving", "LongSidesHalve"]),
        ("The cost at a station", ["i: Cost at a station"], ["format_cost"]),
        ("The block that it stands for", ["i~ block fields beyond N are zero", "i~ one rank byte for all stations", "i~ the same order written as a block"],
         ["up_to_station", "format_block"]),
        ("Questions 5, 19 and 20, then 6 to 12", ["i: Refused: 19", "i: A sheet of another length"], ["format_questions", "format_order_questions"]),
    ]),
    ("model/specs/Calls.antt", "The calls", [
        ("What a call returns and leaves", ["C: The cabinet's C firmware"], ["Result"]),
        ("The number, the image, the reply", ["Q: The reply holds", "Q: After 1", "Q: Every decline"], ["result"]),
        ("Questions 1 to 4", ["Q: Is the lent reply", "Q: Is the image", "Q: Mark and version", "Q: Image sound?"],
         ["reply_question", "length_question", "image_questions"]),
        ("Open", ["Q: N from 1 to 8?", "Q~ Open takes 1, 2, 14", "Q~ open gives zeros and a fresh image (clock 0, next ticket 1)"], ["open_number", "open_call"]),
        ("What an offer and a quote leave of a block", ["Q~ offer gives the ticket, acceptance tick + delay sum, and the smallest margin over newcomer and live"
                                                        " orders", "D: Quote gives"], ["offered", "quoted"]),
        ("Offer", ["Q~ quote and offer 1 to 12",
                   "Q~ offer gives the ticket, acceptance tick + delay sum, and the smallest margin over newcomer and live orders"],
         ["offer_number", "offer_call"]),
        ("Quote", ["D: Quote gives"], ["quote_call"]),
        ("Offer and quote by format", ["i: Offered or quoted", "i: Refused: 19"], ["format_number", "offer_format_call", "quote_format_call"]),
        ("Advance", ["Q: Clock below", "Q: Open takes", "Q~ advance gives the ticket out or 0, the new clock, and 0"],
         ["advance_number", "advance_answer", "advance_call"]),
        ("A call by its kind", ["R~ which call it is, its arguments other than image and reply"], ["Call", "perform"]),
    ]),
    ("model/specs/History.antt", "The run book", [
        ("An accepted order", ["R~ every order accepted so far", "R~ with the new clock as its out tick"], ["Entry"]),
        ("The book", ["R: It holds N"], ["History"]),
        ("Its beginning", ["R: It starts with"], ["begun"]),
        ("Live", ["R: In the book, live means"], ["is_none", "live", "live_orders"]),
        ("The due tick", ["C: Due tick ="], ["entry_due"]),
        ("The company", ["D: For an accepted order T", "D: Members that are out", "X: Dropping an order"], ["members"]),
        ("Acceptance tick + delay sum", ["D: Delay sum of T", "R~ acceptance tick + delay sum"], ["entry_bound"]),
        ("Offer returning 0", ["R: Offer returning 0", "R: Its ticket is", "R: It waits at station 1", "R: Its company is"], ["entering", "joins", "accept_in"]),
        ("Advance returning 0", ["R: Advance returning 0"], ["entry_view", "starts_in", "tick_in"]),
        ("Out", ["R: An order that is out", "T: An order with nothing to go"], ["leaves", "leave_in"]),
        ("The course of one tick, in the book", ["R~ the course of one tick, on the book's own stations and clock"], ["advance_in"]),
        ("The book is fed", ["R: The book is fed", "R: Quote, and any call", "i~ in demand 3's lists and in the run book it counts as that block"], ["feed"]),
        ("Who is out at a tick", ["R~ the ticket out in the book, or 0"], ["is_at", "out_at"]),
    ]),
    ("model/specs/Runs.antt", "Lists of calls", [
        ("A call of the list, with its reply", ["R: Offers and quotes get"], ["Lent"]),
        ("The image and the book beside it", ["R~ gets the image as the call before left it", "R~ The book is fed the calls in turn"], ["Run"]),
        ("The beginning", ["R: A list starts"], ["started"]),
        ("Call after call", ["R: Each call gets", "R: The book is fed"], ["outcome", "after_call", "after_all"]),
        ("Which lists", ["R: Demand 3 speaks of", "i~ in demand 3's lists and in the run book it counts as that block"], ["Allowed", "AllAllowed"]),
        ("The stations during each tick of a list", ["T: Each idle station", "R: Each call gets"], ["during_call", "during_calls"]),
    ]),
    ("claims/specs/Demand3.antt", "Demand 3", [
        ("Each accepted order", ["R: After every such list", "v~ the promised due times must still hold"], ["InTime"]),
        ("Each reply", ["R: The reply of each done offer"], ["Agrees", "AllAgree"]),
        ("The claim about one list", ["R: This is a single claim", "R~ After every such list, for each accepted order"], ["Kept"]),
        ("The claim", ["R: A list starts", "R: Demand 3 speaks of", "W: Demand 3 is over runs"], ["Demand3"]),
    ]),
    ("schedule/specs/Valid.antt", "Words for orders and stations", [
        ("One of a list", OWN, ["◌∈◌"]),
        ("The entry of a station", ["R~ for each station the ticket in service and the ticks to go"], ["serving"]),
        ("Cost and rank at a station", ["C: An order has, for each station"], ["cost", "rank"]),
        ("Waiting", ["T~ Each idle station with waiting orders"], ["Waits"]),
        ("Busy", ["I~ serving a live order that is at it, with ticks to go from 1 to its cost there"], ["Busy"]),
    ]),
    ("claims/specs/Progress.antt", "Progress", [
        ("Advances that are done", ["R~ an advance made next with a reply of 16 bytes returns 0"], ["advances", "AllWhole", "AllDone"]),
        ("Out by the due tick", ["R~ if it is out, its out tick is at most acceptance tick + delay sum, and at most its due tick"], ["Out"]),
        ("Every live order comes out", [FURTHER, "W~ running the first advance and idling in the rest (demands 2 and 3)"], ["Progressed", "Progress"]),
    ]),
    ("model/specs/StateOf.antt", "The state that the book stands for", [
        ("The record of an accepted order", ["I~ ticket, acceptance tick, due tick, sum of the company's largest costs (4 each)",
                                             "I~ the company's largest cost at each station (2 each)"], ["record_over", "record_of"]),
        ("The state", ["R: It holds N", "R: In the book, live means", "I~ Then 32 records of 64 bytes, live ones first in ticket order",
                       "C: Tickets run from 1"], ["state_of"]),
    ]),
    ("image_laws/specs/Iff.antt", "Exactly when", [
        ("Each from the other", OWN, ["◌⇔◌"]),
    ]),
    ("image_laws/specs/InRange.antt", "Bytes", [
        ("Fields of one byte, of two and of four", ["I~ eight ranks (1 each)", "i~ 2 bytes each", "I~ due-in (4)"], ["byte_limit", "half_limit", "word_limit"]),
        ("Every entry below a limit", ["C~ with numbers and byte buffers"], ["Below"]),
    ]),
    ("image_laws/specs/Usable.antt", "Questions 1 to 4, as facts", [
        ("What is lent is usable", ["Q: Is the lent reply", "Q: Is the image", "Q: Mark and version", "Q: Image sound?"], ["Usable"]),
    ]),
    ("call_laws/specs/FormatExact.antt", "Orders by format, as facts", [
        ("Questions 19, 5 and 20", ["i: Refused: 19", "i~ A sheet of another length gets 5"], ["Known", "Unknown", "Readable"]),
        ("It can be written as a block", ["i~ the same order written as a block", "I: An order block is"], ["Writable"]),
        ("The call on the block, and the numbers before it", ["i: Offered or quoted", "i: Refused: 19", "i: A sheet of another length"],
         ["FormatAt", "FormatAsBlock"]),
    ]),
    ("claims/specs/ByHistory.antt", "Quotes and offers by the book", [
        ("With the newcomer", ["D: Offer tries the sums"], ["tried", "arriving"]),
        ("On time, late, margin", ["D: T is on time", "D: Margin is"], ["OnTime", "Late", "margin_of"]),
        ("Questions before 11 that a list can fail", ["Q: Is the lent reply", "Q: Order block 28 bytes?", "Q: Costs of stations", "Q: Due-in 0 to",
                                                      "Q: Due tick at most", "Q: Fewer than 32", "i: Refused: 19"], ["Considered"]),
        ("The smallest margin", ["Q~ the smallest margin over newcomer and live orders", "Q~ margin (signed), 4 bytes each"], ["Smallest"]),
        ("Number, tick and margin", ["Q: Newcomer on time?", "Q: Every live order still",
                                     "Q~ offer gives the ticket, acceptance tick + delay sum, and the smallest margin over newcomer and live orders",
                                     "Q~ margin is 0 save for 11 and 12, which give that same smallest margin",
                                     "W~ declining every offer (demand 2, 11 and 12 only when late); one fixed tick for every order (demand 2's sum)",
                                     "W~ an invented tick or margin (the delay sum)"], ["Judged"]),
        ("The image in step with the book", [FURTHER, "W~ with company taken from the history of calls and not from stored sums"], ["InStep", "ByHistory"]),
    ]),
    ("call_laws/specs/Considered.antt", "Questions 5 to 10, as facts", [
        ("Questions 6 to 10", ["Q: Costs of stations", "Q: Due-in 0 to", "Q: Due tick at most", "Q: A ticket left?", "Q: Fewer than 32"], ["Fitting"]),
        ("Questions 1 to 10", ["Q: Order block 28 bytes?", "Q~ quote and offer 1 to 12"], ["Considered"]),
    ]),
    ("call_laws/specs/OfferExact.antt", "Offers on any image", [
        ("The bound, on time, late, margin", ["D: T is on time", "D: Margin is"], ["bound_tick_of", "InTime", "Late", "margin_of"]),
        ("The smallest margin", ["Q~ the smallest margin over newcomer and live orders"], ["Smallest"]),
        ("The margin given", ["Q~ margin (signed), 4 bytes each", "Q~ margin is 0 save for 11 and 12, which give that same smallest margin"], ["MarginGiven"]),
        ("Number, tick and margin", ["Q: Newcomer on time?", "Q: Every live order still", "X: Trying only the newcomer",
                                     "Q~ offer gives the ticket, acceptance tick + delay sum, and the smallest margin over newcomer and live orders",
                                     "W~ one fixed tick for every order (demand 2's sum)", "W~ an invented tick or margin (the delay sum)"], ["ExactAt"]),
        ("Of everything that is lent", ["W~ declining every offer (demand 2, 11 and 12 only when late)"], ["Exact"]),
    ]),
    ("schedule/specs/Precedence.antt", "Who goes before whom, as facts", [
        ("At a station", [FURTHER, "v: Equal ranks should go"], ["StrictTotalOrder"]),
        ("At every station", [FURTHER, "v: Equal ranks should go"], ["PrecedesInOrder"]),
    ]),
    ("schedule/specs/Starts.antt", "Starts, as facts", [
        ("An order starts", ["T: Each idle station", "v: Equal ranks should go", "R~ a start sets the ticks to go to the cost there"], ["Started"]),
        ("At a station", ["T: Each idle station", "X: Stopping a sheet", "X: Skipping a start"], ["AtStart"]),
    ]),
    ("schedule/specs/Pass.antt", "Ticks, as facts", [
        ("The tick, and who leaves", ["T: The clock goes up by one", "T: An order with nothing to go"], ["pass_to"]),
        ("At a station", ["T~ each order in service has one tick less to go", "T: An order with nothing to go"], ["AtPass"]),
        ("At every station", ["T: An order with nothing to go", "W~ an advance that moves the clock and no sheet (demand 2's starts)"], ["Passes"]),
    ]),
    ("schedule/specs/Out.antt", "The ticket out, as facts", [
        ("An order with a ticket is live", ["I~ 32 records of 64 bytes, live ones first in ticket order"], ["Has"]),
        ("The one that is out", ["Q~ advance gives the ticket out or 0", "T: At most one order is out"], ["OutAsAsked"]),
    ]),
    ("schedule/specs/Course.antt", "The way of one order", [
        ("In service nowhere; at one station alone", ["R~ for each station the ticket in service and the ticks to go"], ["Nowhere", "OnlyAt"]),
        ("Tick by tick", ["C~ visited 1, 2, .. N by every order", "C~ for each station, a cost in ticks", "R~ a start sets the ticks to go to the cost there",
                          "T~ each order in service has one tick less to go", "T: An order with nothing to go"], ["Course"]),
    ]),
    ("claims/specs/Images.antt", "Advances on any image, and over lists", [
        ("Of every image, and after every list", ["C~ with numbers and byte buffers", "R: Demand 3 speaks of", "R: A list starts"],
         ["OfEveryImage", "AfterEveryList"]),
        ("A done advance", ["T: Advance does this", "T: Each idle station", "T: The clock goes up by one", "T: An order with nothing to go",
                            "Q~ advance gives the ticket out or 0, the new clock, and 0",
                            "W~ an advance that moves the clock and no sheet (demand 2's starts); running the first advance and idling in the rest"],
         ["TickAsAsked", "TicksAsAsked"]),
        ("Start after acceptance", ["T: An order accepted at tick 5"], ["StartsOnceAccepted"]),
        ("Start after the station before", ["T: One that leaves station 1"], ["StartsOnceMoved"]),
        ("When an order may start first", ["T: An order accepted at tick 5", "T: One that leaves station 1"], ["TimelyAt", "Timely"]),
        ("Which lists", ["R: Demand 3 speaks of"], ["NotReopened"]),
        ("Served in full", [FURTHER, "C~ visited 1, 2, .. N by every order", "W~ an advance that moves the clock and no sheet (demand 2's starts)"],
         ["ServedInFull"]),
    ]),
    ("call_laws/specs/AdvanceExact.antt", "What an advance returns and gives", [
        ("Number and reply", ["Q~ advance 1 to 4, then 13", "Q: Clock below", "Q~ advance gives the ticket out or 0, the new clock, and 0"],
         ["ExactAt", "AdvanceNumbers"]),
    ]),
    ("claims/specs/Declines.antt", "Declines", [
        ("What a decline leaves", ["Q: Declined", "Q: After 1", "Q: Every decline"], ["DeclinedAt", "Declines"]),
    ]),
    ("image_laws/specs/SoundImage.antt", "An image that the next call can use", [
        ("Whole, marked and sound", ["Q: Is the image", "Q: Mark and version", "Q: Image sound?"], ["SoundImage"]),
    ]),
    ("call_laws/specs/OpenExact.antt", "What an open returns, gives and leaves", [
        ("Questions 1, 2 and 14", ["Q: Is the lent reply", "Q: Is the image", "Q: N from 1 to 8?"], ["Openable"]),
        ("A done open", ["Q~ Open takes 1, 2, 14", "Q~ open gives zeros and a fresh image (clock 0, next ticket 1)"], ["OpenedAt", "OpensFresh"]),
    ]),
    ("call_laws/specs/OfferKept.antt", "What an offer and a quote leave", [
        ("A done offer", FURTHER, ["OfferKeepsSound"]),
        ("A quote", ["D: Quote gives"], ["QuotedAs", "QuoteGivesOffer"]),
        ("A quote by format", ["D: Quote gives", "i: Offered or quoted"], ["FormatQuoteGivesOffer"]),
    ]),
    ("call_laws/specs/DefaultDueIn.antt", "What due-in 0 stands for", [
        ("An order with another due-in", ["I: An order block is", "i: An order may give"], ["with_due_in", "format_with_due_in"]),
        ("Due-in 0 and the default", ["iii: Due-in 0 is", "iii: Quote, offer and"], ["StandsFor", "ZeroStandsForDefault"]),
    ]),
    ("call_laws/specs/AdvanceKept.antt", "What an advance leaves", [
        ("A done advance", FURTHER, ["AdvanceKeepsSound"]),
    ]),
    ("plan_model/src/lib.rt", "A task record", [
        ("The verdict", ["S: On time means", "S~ `on-time` or `late`"], ["Verdict"]),
        ("A task", ["S: Plan reads a table", "S: The standing table is", "S: Plan fills base"], ["Task"]),
    ]),
    ("plan_model/specs/Limits.antt", "Plan's figures", [
        ("Periods", ["S~ period 1 to 60,000"], ["max_period"]),
        ("Tasks", ["S~ a count outside 1 to 32 by 17", "S~ one to 32 task lines"], ["max_tasks"]),
        ("Input", ["S~ input at most 16,384 bytes"], ["max_input"]),
        ("Numbers of a line", ["S~ `period deadline cost1 .. costN`"], ["max_numbers"]),
        ("Digits", ["S~ unsigned decimals of 1 to 9 digits"], ["max_digits"]),
    ]),
    ("plan_model/specs/Base.antt", "The base of a task", [
        ("The largest cost of a task", ["S~ its largest cost", "S: Costs beyond N"], ["largest_cost"]),
        ("The largest cost at each station before N", ["S~ for each station before N the largest cost of any task"], ["stage_costs", "stage_maxima"]),
        ("The base", ["S: Base of task t"], ["base"]),
    ]),
    ("plan_model/specs/Response.antt", "The response of a task", [
        ("Releases that count", ["ii: The factor for task i"], ["releases"]),
        ("The share of another task", ["S~ × largest cost of i", "ii~ The factor for task i"], ["share"]),
        ("The other tasks", ["S~ over the other tasks i"], ["others"]),
        ("What replaces R", ["S~ replace R by base + the sum, over the other tasks i, of"], ["next"]),
        ("Where the repetition ends", ["S: The repetition ends", "ii~ its strict end test remains"], ["past", "ends"]),
        ("The R reached", ["S: Response: begin with", "S: The repetition ends"], ["settled", "response_from"]),
        ("The verdict", ["S: On time means"], ["verdict_where", "verdict_of"]),
    ]),
    ("plan_model/specs/Overlap.antt", "What is counted", [
        ("Releases whose stay can overlap", ["ii: The planning test should"], ["overlaps", "apart", "Overlapping"]),
        ("Every one of them counts", ["ii: The planning test should"], ["Counted", "EveryOverlap"]),
    ]),
    ("plan_model/specs/Plan.antt", "Plan over task records", [
        ("Figures in range", ["S: Plan reads a table", "S~ period 1 to 60,000, deadline 1 to the period, costs 1 to 6,000", "S: Costs beyond N"],
         ["are_costs", "in_range"]),
        ("The number", ["S: It declines N by 14", "S~ returns its number, 0 when done"], ["plan_questions", "plan_number"]),
        ("The response of one task", ["S: Response: begin with"], ["response"]),
        ("The figures filled in", ["S: Plan fills base"], ["with_figures", "figured", "planned"]),
        ("The list as plan leaves it", ["S~ a decline leaves the list alone"], ["left_where", "after_plan"]),
    ]),
    ("plan_model/specs/Meaning.antt", "What the figures mean", [
        ("The sequence of R", ["S: Response: begin with"], ["sequence"]),
        ("The first R that ends it", ["S: The repetition ends", "W~ a plan that writes `late` before repeating (the sequence of R)"], ["FirstEnd"]),
        ("On time", [FURTHER, "S: On time means"], ["LeastFixed"]),
        ("Late", ["S~ at the first R not below the deadline"], ["FirstPast"]),
        ("The largest response and the largest base", FURTHER, ["max_response", "max_base"]),
        ("Of every task of a done plan", ["S: The repetition ends", "S: On time means"], ["Meant", "Meaning"]),
        ("What is asked of a task", ["S: Plan reads a table"], ["Asked", "asked"]),
        ("What plan leaves", ["S~ a decline leaves the list alone", "S: Plan fills base"], ["Leaves"]),
        ("Costs that are not read", ["S: Costs beyond N"], ["up_to", "NotRead"]),
    ]),
    ("plan_model/specs/Thesis.antt", "The thesis's count", [
        ("The published figure", ["S~ This is the published figure"], ["thesis_share", "thesis_next", "thesis_response", "thesis_responses"]),
        ("On time by both", [FURTHER, "S~ This is the published figure"], ["ByThesis", "OnTimeByThesis"]),
    ]),
    ("text/specs/Ascii.antt", "Words as bytes", [
        ("A text", OWN, ["ascii"]),
    ]),
    ("text/specs/Decimal.antt", "Numbers in decimal", [
        ("Digits", ["C~ Numbers are decimal"], ["digit", "digits", "decimal"]),
    ]),
    ("text/specs/Number.antt", "Decimals that are read", [
        ("Their form", ["S~ without leading zeros (a lone 0 has the form)", "iv~ all single-spaced decimals without leading zeros"], ["is_digit", "no_leading_zero", "is_decimal"]),
        ("Their value", ["C~ Numbers are decimal"], ["appended", "value_of"]),
    ]),
    ("text/specs/Parts.antt", "Lines and words of a text", [
        ("Line feed and space", ["S~ single spaces, each line ended by a line feed"], ["line_feed", "space"]),
        ("The parts between", ["S~ single spaces, each line ended by a line feed"], ["placed", "parts", "last_of"]),
        ("Lines and words", ["S~ single spaces, each line ended by a line feed", "iv~ each line ended by a line feed"], ["lines_of", "lines", "words"]),
    ]),
    ("plan_model/specs/Number.antt", "A number of the input", [
        ("Its form", ["S~ unsigned decimals of 1 to 9 digits without leading zeros (a lone 0 has the form)"], ["is_number"]),
    ]),
    ("plan_model/specs/Input.antt", "The plan program's input", [
        ("The first line", ["S~ first line N", "S~ 16 first line a number 1 to 8"], ["is_stations", "stations_of"]),
        ("The task lines", ["S~ 17 one to 32 task lines of that form", "S: The plan program reads"], ["is_numbers", "is_task_line", "is_task_lines"]),
        ("The tasks", ["S~ then one line a task, `period deadline cost1 .. costN`"], ["task_of", "task_at", "tasks_of"]),
        ("Questions 15 to 18", ["S: Its questions"], ["form_questions", "input_questions", "input_number"]),
    ]),
    ("plan_model/specs/Output.antt", "The plan program's output", [
        ("The first line", ["S~ task base response verdict"], ["heading"]),
        ("A task's line", ["S: Fields: task number"], ["verdict_word", "verdict_end", "field", "task_line"]),
        ("The table", ["S: For `2`", "S: task base response verdict"], ["task_lines", "table"]),
        ("A decline", ["S: A decline prints"], ["refusal"]),
        ("What is printed", ["S: The plan program reads", "S: A decline prints"], ["printed_where", "plan_output"]),
    ]),
    ("plan_model/specs/Cases.antt", "Plan's worked tables", [
        ("An input and what is printed", ["S~ it prints, whole"], ["Printing", "is_printed"]),
        ("The paper's two tables", ["S: For `2`", "ii: Document 01's first table", "E: P: both plan tables"], ["first_table", "second_table", "paper_tables"]),
        ("The example of document 004", FURTHER, ["chapter_six"]),
        ("Tables that tell right from nearly right", [FURTHER, "ii: The factor for task i"], ["ends_earlier", "most_ticks", "inside_tables"]),
        ("Responses by the thesis's count", ["S~ This is the published figure"], ["ThesisRow", "is_thesis_row", "thesis_rows"]),
        ("The largest response", FURTHER, ["late_lines", "largest_response"]),
    ]),
    ("model/specs/Table.antt", "Tables of worked cases", [
        ("What a row says", ["W~ The cases marked P form one proved table"], ["Row"]),
        ("Other bytes from a place on", OWN, ["overwritten"]),
        ("What a call may change", ["Q: Every decline", "D~ changes nothing in the image"], ["may_change"]),
        ("The out tick, or 0", ["R~ with the new clock as its out tick"], ["out_tick"]),
        ("What a call gave", ["Q: The reply holds", "Q: Every decline"], ["gave"]),
        ("The run after a call", ["R: A list starts", "R: Each call gets", "R: The book is fed"], ["opened", "onward"]),
        ("A reply buffer", ["R~ the reply buffer of each call has any length and holds any bytes"], ["lent"]),
        ("A row tried", ["W~ The cases marked P form one proved table", "R~ Each call gets the image as the call before left it"], ["Read", "read_row"]),
        ("Row after row", ["E: Marked P are proved", "R~ Each call gets the image as the call before left it"], ["Held", "HoldFrom", "Hold"]),
    ]),
    ("model/specs/Cases.antt", "The paper's worked cases", [
        ("An order block", ["I: An order block is"], ["halves", "block", "order"]),
        ("X and Y", ["E: N = 2 unless named"], ["X", "Y"]),
        ("A margin below zero", ["D~ a whole number that may be below zero"], ["minus"]),
        ("Rows for offers, quotes and advances", ["Q~ offer gives the ticket, acceptance tick + delay sum, and the smallest margin over newcomer and live orders",
                                                  "Q: Declined", "D: Quote gives", "Q~ advance gives the ticket out or 0, the new clock, and 0"],
         ["accepts", "late", "quotes", "advances"]),
        ("The first two", ["E: P: X, due-in 20", "E: P: then Y at 0", "E: X is out at 5"], ["first_two"]),
        ("A late newcomer", ["E: P: Y with due-in 6"], ["late_arrival"]),
        ("A live order that would be late", ["E: P: X with due-in 6"], ["late_live"]),
        ("Ranks the other way round", ["E: P: as the first two"], ["ranks_reversed"]),
        ("No start at a busy station", ["E: P: X at 0 with"], ["starts_at_two"]),
        ("One station", ["E: P: N = 1"], ["one_station"]),
        ("Eight stations", ["E: P: N = 8", "iii~ Eight costs of 6,000 are still declined"], ["eight_stations"]),
        ("All of them", ["E: Marked P are proved"], ["paper_cases"]),
    ]),
    ("model/specs/FormatCases.antt", "Worked cases of orders by format", [
        ("A station sheet, and an order by format", ["i: An order may give"], ["sheet_of", "by_format"]),
        ("Rows for offers and quotes", ["i: Offered or quoted"], ["takes", "too_late", "refuses", "tells"]),
        ("A3 and A5 as X and Y", ["i: Cost at a station", "E: N = 2 unless named"], ["two_stations"]),
        ("The first two, by format", ["i: Offered or quoted", "E: P: X, due-in 20", "E: P: then Y at 0", "E: X is out at 5"], ["first_two_by_format"]),
        ("Late, by format", ["i: Offered or quoted", "E: P: X with due-in 6"], ["late_by_format"]),
        ("Each long side", ["i: The long sides come", "i: Formats are numbered"], ["told", "ten_formats"]),
        ("Each number", ["i: Refused: 19", "i: A sheet of another length"], ["format_numbers"]),
        ("All of them", ["i: Offered or quoted"], ["format_cases"]),
    ]),
    ("model/specs/DefaultCases.antt", "Worked cases of the default due-in", [
        ("A case on each side", ["iii~ lodges that relied on 18,000 write it out, and the workshop needs a case on each side of 9,000"], ["sides_of_default"]),
        ("The same beside a live order", [FURTHER, "iii~ the workshop needs a case on each side of 9,000"], ["sides_with_live"]),
        ("The same by format", ["iii: Quote, offer and", "iii~ the workshop needs a case on each side of 9,000"], ["sides_by_format"]),
        ("All of them", ["iii~ the workshop needs a case on each side of 9,000"], ["default_cases"]),
    ]),
    ("model/specs/TieCases.antt", "Worked cases of ties", [
        ("The later ticket is due first", ["v: A case with two"], ["later_ticket_due_first"]),
        ("Equal due ticks", [FURTHER, "v~ then by the smaller ticket"], ["equal_due_ticks"]),
        ("The rank before the due tick", [FURTHER, "v: Equal ranks should go"], ["rank_before_due_tick"]),
        ("The due tick, and not the due-in", [FURTHER, "v~ by the earlier due tick", "C: Due tick ="], ["due_tick_not_due_in"]),
        ("At the next station", [FURTHER, "v: Equal ranks should go"], ["tie_at_the_next_station"]),
        ("All of them", ["v: A case with two"], ["tie_cases"]),
    ]),
    ("log_model/specs/Limits.antt", "The figures of a log", [
        ("The fields", ["iv~ a value too large for its field"], ["most8", "most16", "most32"]),
        ("The longest line", [FURTHER, "iv~ all single-spaced decimals without leading zeros"], ["max_line"]),
        ("The last line that is counted", [FURTHER, "iv~ Lines count from 1"], ["last_line"]),
    ]),
    ("log_model/specs/Lines.antt", "The lines of a log", [
        ("A value and its field", ["iv~ all single-spaced decimals without leading zeros", "iv~ a value too large for its field"], ["fits", "fit_all"]),
        ("A letter and fields", ["iv: A program reads one"], ["has_form", "values_of"]),
        ("The `N` line", ["iv~ first `N` and the station count", "iv~ a station count outside 1 to 8"], ["stations_of", "is_stations"]),
        ("An `O` line", ["iv~ then a line `O` with due-in, N ranks, N costs, and the recorded number and ticket"], ["order_fields", "is_offer"]),
        ("A `T` line", ["iv~ or a line `T` with the recorded ticket out"], ["is_advance"]),
        ("What a line records", ["iv~ due-in, N ranks, N costs, and the recorded number and ticket", "iv~ the recorded ticket out"], ["Line", "offered_by", "line_of"]),
        ("The call that it records", ["i~ block fields beyond N are zero", "I: An order block is"], ["to_eight", "call_of"]),
        ("Its number and its ticket", ["iv~ the recorded number and ticket", "iv~ a `T` whose advance is declined disagrees"], ["number_of", "ticket_of"]),
    ]),
    ("log_model/specs/Rounding.antt", "The last column", [
        ("To the nearest", ["iv~ rounded to nearest, a half upward"], ["nearest"]),
        ("Thousandths", ["iv~ busy ticks × 1,000 / all ticks, rounded to nearest, a half upward; 0 when no tick passed"], ["thousandths"]),
        ("What that means", ["iv~ rounded to nearest, a half upward; 0 when no tick passed"], ["Rounded", "ThousandthsMean"]),
    ]),
    ("log_model/specs/Rerun.antt", "The rerun", [
        ("The reply that is lent", ["Q: Is the lent reply"], ["lent_reply", "lent_of"]),
        ("Whether a line agrees", ["iv~ or `differs` and the number of the first line that disagrees; a `T` whose advance is declined disagrees"], ["agrees"]),
        ("A declined advance", ["iv~ a `T` whose advance is declined disagrees"], ["DeclinedDisagrees"]),
        ("The first line that disagrees", ["iv~ It runs the log from a fresh cabinet", "iv~ the number of the first line that disagrees"], ["first_difference", "differs_at"]),
        ("The ticks", ["iv~ all ticks"], ["ticks_of"]),
        ("Busy ticks", ["iv~ busy ticks"], ["is_busy", "busy_ticks"]),
    ]),
    ("log_model/specs/Output.antt", "What the rerun prints", [
        ("The form of each line", ["iv: Lines count from 1", "iv~ 21 for a line of another form"], ["is_call", "formed", "unended"]),
        ("The first line of another form", ["iv~ the first such line anywhere in the log", "iv~ Lines count from 1"], ["first_false", "refused_at"]),
        ("What a log says", ["iv: A program reads one"], ["stations_in", "calls_in"]),
        ("Its lines", ["iv~ is printed as `refused 21` and its line number in place of any result", "iv: Printed lines, here and"], ["refused_line", "differs_line"]),
        ("After `same`", ["iv: After `same`"], ["station_line", "same_lines", "busy_of"]),
        ("What is printed", ["iv: It runs the log", "iv: Refused: 21"], ["result_of", "rerun_output"]),
    ]),
    ("log_model/src/lib.rt", "The state of a log that is read", [
        ("What the ended lines make of it", FURTHER, ["Rerun"]),
        ("With the line that has not ended", FURTHER, ["Reading"]),
    ]),
    ("log_model/specs/Reading.antt", "A log byte by byte", [
        ("The state and the image", FURTHER, ["Ran", "next_line", "settled"]),
        ("A line of another form, and one passed over", [FURTHER, "iv~ the first such line anywhere in the log"], ["refused_here", "passed_by"]),
        ("The first line", [FURTHER, "iv~ first `N` and the station count"], ["opened_with", "first_line"]),
        ("Ticks and busy ticks", [FURTHER, "iv~ station, busy ticks"], ["one_more", "occupied", "counted", "tick_passed", "after_line"]),
        ("A later line", [FURTHER, "iv~ or `differs` and the number of the first line that disagrees"], ["compared_by", "ran_line", "call_line", "line_ended"]),
        ("A byte, and bytes", [FURTHER, "iv~ each line ended by a line feed"], ["Fed", "held_line", "holding", "fed_line_feed", "fed_byte", "fed_all", "begun"]),
        ("At the end", [FURTHER, "iv: Refused: 21"], ["at_end", "printed"]),
    ]),
    ("log_model/specs/Written.antt", "A log that is written", [
        ("A line", ["iv~ all single-spaced decimals without leading zeros, each line ended by a line feed"], ["field_bytes", "line_bytes"]),
        ("Each kind of line", ["iv: A program reads one"], ["stations_bytes", "call_bytes"]),
        ("The log", ["iv~ each line ended by a line feed"], ["ended", "written_log"]),
        ("What a line can hold", ["iv~ a value too large for its field"], ["can_hold"]),
        ("The lines of a call", ["iv~ the recorded number and ticket", "i~ in demand 3's lists and in the run book it counts as that block"],
         ["offer_line", "offer_lines", "advance_lines", "lines_for"]),
        ("The lines of a list of calls", ["R: Each call gets"], ["lines_of_calls"]),
        ("The book's ticks", ["R: Advance returning 0", "iv~ busy ticks"], ["during_in", "book_ticks"]),
    ]),
    ("log_laws/specs/Meaning.antt", "What a rerun means", [
        ("Lists of bytes", ["R: Offers and quotes get"], ["OfBytes", "AllOfBytes"]),
        ("A log that is written reruns as same", [FURTHER, "iv: It runs the log"], ["RerunsAsSame", "WrittenReruns"]),
        ("What a line gives", ["iv~ the recorded number and ticket"], ["Gives", "AllGive"]),
        ("What same means", [FURTHER, "iv: It runs the log"], ["Recorded", "SameMeans"]),
        ("Which of the three", ["iv: It runs the log", "iv: Refused: 21", "iv: After `same`"], ["forms", "image_after", "Verdicts", "PrintsAsAsked"]),
        ("In any chunks", [FURTHER, "iv~ reads one from standard input"], ["WhateverChunks"]),
        ("As the whole log", [FURTHER, "iv~ reads one from standard input"], ["read_log", "ReadsAsWhole"]),
    ]),
    ("log_model/specs/Cases.antt", "Worked logs", [
        ("A log and what is printed", ["iv: It runs the log"], ["Rerunning", "is_rerun"]),
        ("Ticks without an order", OWN, ["idle_ticks"]),
        ("Short logs", ["iv: Lines count from 1"], ["short_logs"]),
        ("Orders that are served", ["iv: After `same`"], ["served_logs"]),
        ("Halves", ["iv~ rounded to nearest, a half upward"], ["half_logs"]),
        ("What disagrees", ["iv: It runs the log"], ["differing_logs"]),
        ("Lines of another form", ["iv: Refused: 21"], ["other_logs"]),
        ("Values and their fields", ["iv~ a value too large for its field"], ["field_logs"]),
        ("All of them", ["iv: It runs the log"], ["log_tables"]),
        ("Ties in a log", ["v: The rule for picking"], ["tie_logs"]),
        ("The last column", ["iv~ rounded to nearest, a half upward"], ["Share", "is_share", "share", "shares"]),
    ]),
    ("claims/specs/WorkedCases.antt", "The table of worked cases", [
        ("A case, and that it holds", ["W~ The cases marked P form one proved table"], ["Case", "CaseHolds", "EachHolds"]),
        ("The table", ["E: Marked P are proved", "E: P: both plan tables", "W~ The cases marked P form one proved table"], ["paper_table", "WorkedCases"]),
    ]),
    ("claims/specs/Claims.antt", "All claims", [
        ("What a stranger may rely on", ["W: These cheats fail", "W: Demand 3 is over runs", "W~ The cases marked P form one proved table"], ["Claims"]),
    ]),
]

# What stands at the head of a file's section: the passage whole, before it is taken part by part.
WHOLE = {
    "model/specs/Tick.antt": ["T: Advance does this", "T: Each idle station", "T: The clock goes up by one", "T: An order with nothing to go"],
    "model/specs/DelayBound.antt": ["D: For an accepted order T", "D: Members that are out", "D: Delay sum of T", "D: With N = 1", "D: T is on time",
                                    "D: Margin is"],
    "model/specs/Soundness.antt": ["I: Sound means"],
    "plan_model/specs/Plan.antt": ["S: Plan reads a table", "S: The standing table is", "S: Plan fills base", "S: It declines N by 14", "S: Costs beyond N"],
    "plan_model/specs/Response.antt": ["S: Response: begin with", "S: The repetition ends", "S: On time means", "ii: The factor for task i"],
    "plan_model/specs/Input.antt": ["S: The plan program reads", "S: Its questions"],
    "log_model/specs/Output.antt": ["iv: A program reads one", "iv: Lines count from 1", "iv: It runs the log", "iv: After `same`", "iv: Refused: 21"],
    "model/specs/History.antt": ["R: The book is fed", "R: It holds N", "R: It starts with"],
}

# What requests overrule: a passage of document 01 or of an earlier request, and the passage of the request that holds in its place.
OVERRULED = [
    ("S~ R / period of i", "ii~ (R + deadline of i - 1) / period of i"),
    ("S~ 1 5 7 on-time 2 4 7 on-time", "ii~ Document 01's first table then has responses 9 and 10, the second task late"),
    ("S: With deadline 7", "ii~ with deadline 7 for task 2 both figures are the same"),
    ("C~ 0 stands for 18,000.", "iii: Due-in 0 is"),
    ("T~ equal ranks go by the smaller ticket", "v: Equal ranks should go"),
]

# Sentences of these sections, and of requests, that no definition of `Claims` renders, and where they are kept; and words that are not rendered of a sentence
# that is. Names with a file, files and entries of docs/DECISIONS.md are looked up.
ELSEWHERE = [
    ("C: Inside the work", "the calls are in crates/dispatcher, plan in crates/plan_core, its program in crates/plan"),
    ("C: Outside it", "outside"),
    ("C: The model is that of", "docs/DECISIONS.md, D41 to D47, has where it differs"),
    ("C: Source document 000", "docs/DECISIONS.md, D41 and D45"),
    ("C: Where the sources", "docs/DECISIONS.md, D41 to D47, has how it decides"),
    ("C: Documents 001 to 003", "nothing is taken from them"),
    ("C: A tick is 0.1 s.", "the definitions count ticks; include/dispatcher.h asks the firmware for an advance in each 0.1 s"),
    ("S~ the offers do not rest on it", "the order of this page shows it: plan's definitions come after all that the claims about calls rest on"),
    ("E: N = 1, 32 orders", "not marked P; computed all the same, `thirty_two_live` (crates/model/specs/Cases.antt), and made by the program crates/cases"),
    ("W: Every operation open", "the contracts, which stand in the section after the definitions; docs/CLAIMS.md, point by point"),
    ("W: It is due whole", "`demand_3` (crates/claims/proofs/Demand3.antt), of all calls"),
    ("W~ a program compares the remaining cases with stored output, and long runs with a second simulator by other hands",
     "the programs crates/cases and crates/soak; tests/README.md says what is compared with what"),
    ("i: Counters know", "why it was asked for"),
    ("ii: A landing that", "why it was asked for"),
    ("ii~ Planning figures, demand 2's too, are compared with this rule from now on", "tests/README.md says what is compared with what, and at which level"),
    ("iii: Walkers who", "why it was asked for"),
    ("iv: The service van", "why it was asked for"),
    ("iv~ reads one from standard input", "the program crates/rerun, which reads and writes and does nothing else"),
    ("iv~ here and in later requests, are spaced and ended likewise", "of the rerun; later requests have their own"),
    ("X: The core carries", "a form of the code: crates/image/src/pipeline.rt"),
    ("X: After it, a station's", "a form of the code: crates/tick/src/entries.rt"),
]

# What the libraries' names mean: those of the language, and those that `use` lines take from a module of the toolchain.
LANGUAGE = {
    "Type": "`Type 0` is the type of types: a definition of type `Type 0` is a statement or a kind of data",
    "Unit": "`Unit {0}`, the statement that says nothing",
    "⊥": "the statement that never holds: `P → ⊥` says that P does not hold",
    "×": "`P × Q`: P and Q; `(x : A) × P`: there is an x in A of which P holds",
}
TOOLCHAIN = re.compile(r"(Rattle\.std|mathlib|Prim|lib|native)\.")
LIBRARY = {
    "ℕ": "the numbers 0, 1, 2, .. without end",
    "zero": "0",
    "suc": "`suc n` is n + 1",
    "◌+◌": "sum",
    "◌*◌": "product",
    "◌-◌": "difference, and 0 where the second number is the larger",
    "◌/◌": "quotient, rounded down",
    "◌%◌": "remainder",
    "max": "the larger of two",
    "◌≤◌": "at most, as a statement",
    "◌<◌": "below, as a statement",
    "Bool": "the answers of a test",
    "true": "yes",
    "false": "no",
    "cond": "`cond b x y` is x where b is true, and y where it is false",
    "◌&&◌": "both",
    "◌||◌": "one of the two at least",
    "not": "the other answer",
    "leb": "the test at most",
    "ltb": "the test below",
    "eqb": "the test equal",
    "List": "`List A`, lists of any length with entries in A",
    "[]": "the empty list",
    "◌∷◌": "`x ∷ l` is x and then the entries of l",
    "◌++◌": "`l ++ m` is the entries of l and then those of m",
    "map": "`map f l` is f of each entry of l, in order",
    "foldl": "`foldl f x l` begins with x, and for each entry y of l in turn takes `f x y` in place of x",
    "drop_last": "the list without its last entry; of the empty list, the empty list",
    "Memᴰ": "`Memᴰ x l`: x is one of the entries of l",
    "length": "the number of entries",
    "get_or": "`get_or l i d` is the entry of l at place i, counted from 0, and d where there is none",
    "take": "`take n l` is the first n entries, or all where there are fewer",
    "drop": "`drop n l` is what follows the first n entries",
    "replicate": "`replicate n x` is n times x",
    "set": "`set l i x` is l with x at place i, counted from 0, and l where there is no such place",
    "Option": "`Option A`, a value of A or none",
    "none": "no value",
    "some": "`some x` is the value x",
    "◌≡◌": "equal, as a statement",
    "◌≢◌": "not equal, as a statement",
    "◌⊎◌": "`P ⊎ Q`: P or Q, or both, as a statement",
    "ℤ": "whole numbers",
    "pos": "`pos n` is the whole number n",
    "negsuc": "`negsuc n` is the whole number -(n + 1)",
    "◌-ℤ◌": "difference of whole numbers",
    "lt_z": "the test below, of whole numbers",
    "mag": "`mag (pos n)` and `mag (negsuc n)` are n: `mag z < 2147483648` says that z is a signed number of 32 bits",
    "code": "the code of a character, as a number",
    "String": "texts, written between quotation marks; `\\n` is a line feed",
}
# Those of one module that has another thing by the same name.
OF_MODULE = {
    ("Prim.Native.String", "[]"): "the empty text, named `none` where it is used",
    ("Prim.Native.String", "◌∷◌"): "a character and then a text, named `◌then◌` where it is used",
}


def meaning(source, name):
    """What a name of a library means, or none."""
    if source == "the language":
        return LANGUAGE.get(name)
    return OF_MODULE.get((source, name)) or (LIBRARY.get(name) if TOOLCHAIN.match(source) else None)


# The contracts in code: open functions whose contracts cite the definitions, and the records that their contracts are.
CODE = [
    ("dispatcher_c", "dispatcher_open", ["open_call"]),
    ("dispatcher_c", "dispatcher_quote", ["quote_call"]),
    ("dispatcher_c", "dispatcher_offer", ["offer_call"]),
    ("dispatcher_c", "dispatcher_quote_format", ["quote_format_call"]),
    ("dispatcher_c", "dispatcher_offer_format", ["offer_format_call"]),
    ("dispatcher_c", "dispatcher_advance", ["advance_call"]),
    ("plan_core", "plan", ["plan_number", "after_plan"]),
    ("plan_text", "print_plan", ["plan_output"]),
    ("log_reader", "begin", ["begun"]),
    ("log_reader", "feed", ["fed_all"]),
    ("log_reader", "print", ["printed"]),
]
GIVES = [("crates/dispatcher/specs/Gives.antt", ["Gives"]), ("crates/lists/specs/Stored.antt", ["Stored", "Put"])]

KEYWORDS = {"let", "in", "record", "where", "λ", "→", "=", ":", "pub", "abbrev", "unfoldable", "unfolding", "data", ".", "infix", "infixl", "infixr"}
TOKEN = re.compile(r"«[^»]*»|\.«?[^\s(){};,.]+»?|[^\s(){};,]+|[(){};,]")
HEAD = re.compile(r"^(?:(?:unfoldable|abbrev|pub) )*(?:(record|data) )?(«[^»]*»|[^\s:(){}]+)\s")


def fail(text):
    sys.exit(f"reading.py: {text}")


def read(path):
    file = ROOT / path
    if not file.is_file():
        fail(f"{path}: no such file")
    return file.read_text(encoding="utf-8")


# ---- the sources


class Definition:
    """A declaration of a specs file, or a struct or enum of code: its comment and its code, line by line."""

    def __init__(self, module, name, kind, comment, code):
        self.module, self.name, self.kind, self.comment, self.code = module, name, kind, comment, code
        self.fields, self.constructors = [], []
        if kind == "struct":
            self.fields = re.findall(r"^\s+pub (\w+):", "\n".join(code), re.M)
        elif kind == "record":
            self.fields = [f.strip("«»") for f in re.findall(r"^  pub (\S+) :", "\n".join(code), re.M)]
        elif kind == "data":
            self.constructors = re.findall(r"^  (\S+) :", "\n".join(code), re.M)
        elif kind == "enum":
            self.constructors = re.findall(r"^    (\w+),$", "\n".join(code), re.M)


class Module:
    """A file of specs: what it imports, what it declares, and the comment that it begins with."""

    def __init__(self, name, path):
        self.name, self.path = name, path
        self.imports, self.aliases, self.declared, self.order, self.opening = {}, {}, {}, [], []
        paragraphs = [[]]
        for line in read(path).split("\n"):
            if line.strip():
                paragraphs[-1].append(line)
            elif paragraphs[-1]:
                paragraphs.append([])
        waiting = []
        for place, lines in enumerate(p for p in paragraphs if p):
            uses = [x for x in lines if x.startswith(("use ", "pub use "))]
            for line in uses:
                self.use(line.removeprefix("pub "))
            comment = [x for x in lines if x.startswith("--")]
            code = [x for x in lines if not x.startswith(("--", "use ", "pub use "))]
            if not code:
                if place == 0:
                    self.opening = comment
                else:
                    waiting += comment
                continue
            if uses:
                fail(f"{path}: a declaration stands in the paragraph of the `use` lines")
            head = next(x for x in code if not x.startswith(("infix ", "infixl ", "infixr ")))
            found = HEAD.match(head + " ")
            if not found:
                fail(f"{path}: no declaration: {head}")
            kind, name_here = found.group(1) or "function", found.group(2).strip("«»")
            others = [x for x in code if re.match(r"(unfoldable|abbrev|pub) ", x) and x is not head]
            if others:
                fail(f"{path}: two declarations in one paragraph: {others[0]}")
            definition = Definition(self, name_here, kind, waiting + comment, code)
            waiting = []
            self.order.append(name_here)
            for own in [name_here] + definition.constructors:
                if own in self.declared:
                    fail(f"{path}: {own} is declared twice")
                self.declared[own] = definition

    def use(self, line):
        several = re.fullmatch(r"use (\S+?)\.\{(.*)\}", line)
        renamed = re.fullmatch(r"use (\S+) as (\S+)", line)
        if several:
            for part in several.group(2).split(","):
                name, _, new = part.strip().partition(" as ")
                self.imports[(new or name).strip()] = (several.group(1), name.strip())
        elif renamed:
            self.aliases[renamed.group(2)] = renamed.group(1)
        elif re.fullmatch(r"use \S+", line):
            whole = line.split()[1]
            self.aliases[whole.split(".")[-1]] = whole
        else:
            fail(f"{self.path}: a `use` line of another form: {line}")


class Structs:
    """The structs and enums of a crate's code, which its definitions import as records and kinds of data."""

    def __init__(self, path):
        self.name, self.path, self.opening, self.order, self.declared = "structs", path, [], [], {}
        comment, code = [], []
        for line in read(path).split("\n"):
            if line.startswith("//"):
                comment.append(line)
            elif line.lstrip().startswith("#["):
                pass  # an attribute, as #[derive(Clone, Copy)] or #[default], says nothing of what is meant
            elif line.startswith(("pub struct ", "pub enum ")) or code:
                code.append(line)
                if line == "}":
                    kind, name = re.match(r"pub (struct|enum) (\w+)", code[0]).groups()
                    definition = Definition(self, name, kind, comment, code)
                    for own in [name] + definition.constructors:
                        self.declared[own] = definition
                    self.order.append(name)
                    comment, code = [], []
            else:
                if not self.order and not self.opening:
                    self.opening = comment
                comment = []


MODULES = {}


def module_of(name, asking):
    """The module that a whole name leads to: a file of specs of a crate, a struct of its code, or none, where it is a library's."""
    found = re.fullmatch(r"Rattle\.(\w+)\.(?:(specs)\.)?(.+)", name)
    if not found or not (ROOT / "crates" / found.group(1)).is_dir():
        return None
    if not found.group(2):
        fail(f"{asking}: {name} is no module of definitions")
    crate, rest = found.group(1), found.group(3)
    declared = rest.startswith("declared.")
    key = (crate, "declared" if declared else rest)
    if key not in MODULES:
        MODULES[key] = Structs(f"crates/{crate}/src/lib.rt") if declared else Module(rest, f"crates/{crate}/specs/{rest.replace('.', '/')}.antt")
    return MODULES[key]


def tokens_of(code):
    text = "\n".join(re.sub(r"(^|\s)--.*", "", re.sub(r'"[^"]*"', "", line)) for line in code)
    return text, TOKEN.findall(text)


def bound_in(definition, text):
    """The names that a definition binds itself: arguments, `let`, `λ`, and the fields that it builds or declares."""
    names = set()
    for group in re.findall(r"[({]([^(){}:;=]+?) :(?=\s)", text):
        names.update(group.split())
    for group in re.findall(r"λ\s+([^.()]+)\.", text):
        names.update(group.split())
    names.update(re.findall(r"\blet\s+(\S+)", text))
    head = re.escape(definition.name)
    if re.fullmatch("◌.+◌", definition.name):
        head = rf"(?=\S+ {re.escape(definition.name[1:-1])} )"
    for arguments in re.findall(rf"^{head} ?([^=]*)=(?=\s|$)", text, re.M):
        names.update(t.strip(".") for t in TOKEN.findall(arguments))
    return {n.strip("«»") for n in names}


def resolve(definition):
    """What a definition names: definitions of the crates, and names of libraries. Every other word has to be bound in it."""
    module, used, library, projected = definition.module, set(), set(), set()
    if definition.kind in ("struct", "enum"):
        for kind in re.findall(r": (.*),$", "\n".join(definition.code), re.M):
            if kind in module.declared:
                used.add(module.declared[kind])
            elif not re.fullmatch(r"u8|u16|u32|u64|usize|\[(u8|u16|u32); \d+\]", kind):
                fail(f"{module.path}: a field of {definition.name} has the type {kind}")
        return used, library, projected
    text, tokens = tokens_of(definition.code)
    # Fields that a record is built with, and those that are declared, are no names in scope.
    built = set(re.findall(r"(?:record\s*\{|;)\s*«?([\w-]+)»?\s*=(?=\s)", text))
    bound = bound_in(definition, text)
    scope = {}
    for own, target in module.declared.items():
        scope[own] = ("crate", target)
    for name, (source, original) in module.imports.items():
        other = module_of(source, module.path)
        if other is None:
            scope[name] = ("library", (source, original))
        elif original in other.declared:
            scope[name] = ("crate", other.declared[original])
        else:
            fail(f"{module.path}: {source} has no {original}")
    for name in list(scope):
        if name.startswith("◌") and name.endswith("◌") and len(name) > 2:
            scope[name[1:-1]] = scope[name]
    for name in LANGUAGE:
        scope.setdefault(name, ("library", ("the language", name)))
    own_words = {definition.name, *definition.fields, *definition.constructors}
    own_words |= {own.strip("◌") for own in own_words}
    for place, token in enumerate(tokens):
        if token == ".":
            continue
        if token.startswith("."):
            projected.update(x for x in token.split(".") if x)
            continue
        word = token
        if len(word) > 1 and word.endswith("."):
            word = word[:-1]
        # A projection is written tight, `r.field`; but for a name of a module that a `use` line brings in.
        if "." in word and word.split(".")[0] not in module.aliases:
            word, *fields = word.split(".")
            projected.update(fields)
        if word in KEYWORDS or word in "(){};," or re.fullmatch(r"[0-9]+", word):
            continue
        if word in built and place + 1 < len(tokens) and tokens[place + 1] == "=" and tokens[place - 1] in ("{", ";"):
            continue
        if "." in word:
            alias, _, name = word.rpartition(".")
            source = module.aliases.get(alias)
            if source is None:
                fail(f"{module.path}: {definition.name}: {word} is not known")
            other = module_of(source, module.path)
            if other is None:
                library.add((source, name))
            else:
                used.add(other.declared[name])
            continue
        # A word that is bound here and also names something outside is followed too: more may be read than is needed, but nothing is missed.
        # So is a name that is imported and that a field has as well, as in `pub chapter_six : is_printed chapter_six ≡ true`.
        if word in scope and (word not in own_words or word in module.imports):
            kind, target = scope[word]
            (library if kind == "library" else used).add(target)
            continue
        if word not in bound and word not in own_words:
            fail(f"{module.path}: {definition.name}: the name {word} is neither a definition nor a name of a library")
    return used, library, projected


def closure_of(first):
    """Every definition that the first one rests on, with what each names."""
    found, waiting = {}, [first]
    while waiting:
        definition = waiting.pop()
        if definition in found:
            continue
        found[definition] = resolve(definition)
        waiting += found[definition][0]
    fields = {f for d in found for f in d.fields}
    for definition, (_, _, projected) in found.items():
        for name in projected - fields:
            fail(f"{definition.module.path}: {definition.name}: .{name} is a field of no record that is read here")
    return found


# ---- the papers


def plain(text):
    return re.sub(r"\s+", " ", text).strip()


def sentences(body):
    """Sentences and points, in order: (mark, text), where the mark is that of a list's point."""
    units = []
    for block in re.split(r"\n\n|\n(?=\d+\. |- )", body.strip()):
        mark = re.match(r"\d+\. |- ", block)
        text = plain(block[mark.end():] if mark else block).removeprefix("``` ").removesuffix(" ```")
        for n, sentence in enumerate(re.split(r"(?<=[^.]\.) (?=[A-Z0-9])", text)):
            units.append((mark.group(0) if mark and n == 0 else "", sentence))
    return units


def papers():
    """The sections of document 01 by letter and the requests of document 02 by number: the heading that the page gives them, and the sentences."""
    first, second = ((HERE / name).read_text(encoding="utf-8") for name in ("document-01.md", "document-02.md"))
    sections = dict(part.split("\n", 1) for part in re.split(r"(?m)^## ", first)[1:])
    for title in sorted(set(SECTIONS.values()) ^ set(sections)):
        fail(f"document-01.md or the table SECTIONS has no '{title}'")
    found = {letter: (title, sentences(sections[title])) for letter, title in SECTIONS.items()}
    for number, title, body in re.findall(r"(?ms)^\((\w+)\) \*\*(.*?)\.\*\* (.*?)(?=^\(\w+\) \*\*|\Z)", second):
        found[number] = (f"Document 02, ({number}), {title}", sentences(body))
    return found


PAPERS = papers()
REQUESTS = [letter for letter in PAPERS if letter not in SECTIONS]
RENDERED = set()
GONE = {}  # by sentence: the words of it that are overruled, by which sentence, and by which words of that


def landed():
    """The requests that have landed: as many of the first ones as tests/level says."""
    level = read("tests/level").strip()
    if not level.isdigit() or int(level) > len(REQUESTS):
        fail(f"tests/level is '{level}', and no number of requests")
    return REQUESTS[:int(level)]


LANDED = landed()


def source(letter):
    return f"document 01, '{SECTIONS[letter]}'" if letter in SECTIONS else f"document 02, ({letter})"


def ask_landed(number, asking):
    if number not in LANDED:
        fail(f"{asking}: request ({number}) of document 02 has not landed")


def is_whole(text):
    """Whether a passage is a whole sentence."""
    return text.split(" ")[0].endswith(":")


def find(text):
    """The sentence that a passage is taken from, as its section and place there, and the words."""
    letter, words = (re.fullmatch(r"(\w+)[:~] (.*)", text) or fail(f"'{text}' is no passage")).groups()
    if letter not in SECTIONS:
        ask_landed(letter, f"'{text}'")
    units = PAPERS[letter][1]
    if is_whole(text):
        found = [n for n, (_, s) in enumerate(units) if s.startswith(words)]
        if len(found) != 1:
            fail(f"{source(letter)}: {len(found)} sentences begin with '{words}'")
        return (letter, found[0]), units[found[0]][1]
    found = [n for n, (_, s) in enumerate(units) if words in s]
    if not found:
        fail(f"{source(letter)}, has no words '{words}'")
    return (letter, found[0]), words


def held(key, words):
    """Words of a sentence, with a mark in place of what is overruled in it."""
    for old, _, _ in GONE.get(key, []):
        words = words.replace(old, "~")
    return words


def overrule():
    """Fills GONE from the table OVERRULED."""
    for old, new in OVERRULED:
        (by, replacing), (key, words) = find(new), find(old)
        units = PAPERS[key[0]][1]
        if by[0] in SECTIONS or key[0] in REQUESTS[REQUESTS.index(by[0]):]:
            fail(f"OVERRULED: '{new}' is of no request after '{old}'")
        if sum(s.count(words) for _, s in units) != 1 or words not in held(key, units[key[1]][1]):
            fail(f"OVERRULED: {source(key[0])}, has '{words}' more than once, or it is overruled twice")
        GONE.setdefault(key, []).append((words, by, replacing))


def marked(key, words, replaced=False):
    """Words of a sentence as the page shows them: what is overruled is struck out, and where asked for, the words that hold in its place follow."""
    gone = {old: (by, new) for old, by, new in GONE.get(key, [])}

    def mark(found):
        by, new = gone[found.group(0)]
        return f"~~{found.group(0)}~~ [overruled by ({by[0]})" + (f': "{marked(by, new)}"]' if replaced else "]")

    return re.sub("|".join(map(re.escape, gone)), mark, words) if gone else words


def passage(text):
    """The heading of a passage, the sentence that it is taken from, and its words as the page shows them."""
    key, words = find(text)
    heading, units = PAPERS[key[0]]
    mark, sentence = units[key[1]]
    rest = held(key, words)
    if rest not in held(key, sentence) or not re.search(r"\w", rest):
        fail(f"{source(key[0])}: '{words}' is overruled by {', '.join(f'({by[0]})' for _, by, _ in GONE[key])}, and is quoted as if it held")
    if is_whole(text):
        return heading, key, (mark if mark != "- " else "") + marked(key, sentence)
    before = "" if sentence.startswith(words) else ".. "
    after = "" if sentence.rstrip(".").endswith(words.rstrip(".")) else " .."
    return heading, key, before + marked(key, words) + after


def quoted_lines(said, renders=True):
    """Passages as lines of a quotation. Sentences that follow each other in a paper stand in one paragraph."""
    paragraphs = []
    for text in said:
        heading, key, words = passage(text)
        if renders:
            RENDERED.add(key)
        last = paragraphs[-1] if paragraphs else None
        if last and is_whole(text) and last[1] == (key[0], key[1] - 1) and not PAPERS[key[0]][1][key[1]][0]:
            paragraphs[-1] = (heading, key, f"{last[2]} {words}")
        else:
            paragraphs.append((heading, key if is_whole(text) else None, words if last and last[0] == heading else f"**{heading}:** {words}"))
    lines = []
    for _, _, words in paragraphs:
        lines += [*([">"] if lines else []), *wrapped(words, "> ")]
    return lines + [""] if lines else []


def without_no(text):
    """A quoted "no" ends no quotation."""
    return text.replace('"no"', "'no'")


def words_of(letters):
    """All words of some sections or requests, and those that are not overruled."""
    units = [((letter, n), s) for letter in letters for n, (_, s) in enumerate(PAPERS[letter][1])]
    headings = [PAPERS[letter][0] for letter in letters]
    return [without_no(" ".join(words + headings)) for words in ([s for _, s in units], [held(key, s) for key, s in units])]


def quotations_in_comments():
    """Each quotation in a comment of the crates of definitions: the file, the request that was named last before it, or none for document 01, and the words."""
    for crate in CRATES_OF_DEFINITIONS:
        folder = ROOT / "crates" / crate
        for file in sorted([*folder.glob("specs/**/*.antt"), *folder.glob("src/*.rt")]):
            for comment in re.findall(r"(?m)(?:^ *(?:--|//).*\n)+", file.read_text(encoding="utf-8")):
                request = None
                said = without_no(plain(re.sub(r"(?m)^ *(--|//)", "", comment)))
                for found in re.finditer(r'[Dd]ocument 0(?:1|2, \((\w+)\))|"([^"]*)"', said):
                    if found.group(2) is None:
                        request = found.group(1)
                    else:
                        yield file.relative_to(ROOT), request, found.group(2)


def quotations():
    """Every quotation in a comment stands in its paper and is not overruled. How many there are of each document."""
    texts = {None: words_of(SECTIONS), **{number: words_of([number]) for number in LANDED}}
    counts = [0, 0]
    for file, request, quote in quotations_in_comments():
        if request:
            ask_landed(request, f'{file}: "{quote}"')
        paper = f"document 02, ({request})," if request else "document 01"
        for piece in re.split(r"\s*\.\.\s*", quote):
            piece = piece.strip(" .:;,?")
            for text, what in zip(texts[request], ("does not have", "has, but overruled")):
                if piece not in text:
                    fail(f"{file}: a comment quotes '{piece}', which {paper} {what}")
        counts[1 if request else 0] += 1
    return counts


# ---- the page


def wrapped(text, first="", later=None):
    return textwrap.wrap(text, WIDTH, initial_indent=first, subsequent_indent=first if later is None else later, break_long_words=False, break_on_hyphens=False)


def anchor(title):
    return re.sub(r"[^\w\- ]", "", title.lower()).replace(" ", "-")


def proved():
    """The lines in which rt says that the crates under the theorem are proved, and the crates."""
    uses = {}
    for line in read("crates.txt").split("\n"):
        name, colon, rest = line.partition("#")[0].partition(":")
        if colon:
            uses[name.strip()] = rest.split()
    reached, waiting = [], [PROVED_IN]
    while waiting:
        name = waiting.pop()
        if name not in reached:
            reached.append(name)
            waiting += uses[name]
    if not (ROOT / LOG).is_file():
        fail(f"there is no {LOG}: run `rt ci {PROVED_IN} > {LOG}` first, or tests/run")
    log = read(LOG)
    for name in reached:
        # Proved in this run, or kept from an earlier one that proved the same files.
        if not re.search(rf"^rt: {name} (proved$|is kept: )", log, re.M):
            fail(f"crate {name} is not proved: {LOG} does not say it")
        for part in re.findall(rf"^== {name}\n(.*?)^rt: {name} ", log, re.M | re.S):
            said = re.findall(r"^logic=.*", part, re.M)
            if len(said) != 1 or not said[0].startswith("logic=proved "):
                fail(f"crate {name} is not proved: {said}")
            if "foreign=" in said[0] or "axioms=" in said[0] or re.search(r"^axioms ", part, re.M):
                fail(f"crate {name} rests on something assumed: {said[0]}")
    return [n for n in uses if n in reached]


def contract(crate, name, cites):
    """The file of an open function of a crate, and the function's head with its contract."""
    places = []
    for file in sorted((ROOT / "crates" / crate / "src").glob("**/*.rt")):
        found = re.search(rf'^pub (extern "C" )?fn {name}\(.*?(?=^\{{)', file.read_text(encoding="utf-8"), re.M | re.S)
        if found:
            places.append((file.relative_to(ROOT).as_posix(), found.group(0)))
    if len(places) != 1:
        fail(f"crates/{crate}/src has {len(places)} open functions {name}")
    path, head = places[0]
    if "requires" in head or not all(re.search(rf"[(≡] ?{cite} ", head) for cite in cites):
        fail(f"{path}: the contract of {name} is not that it gives {' and '.join(cites)}, for all arguments")
    return path, head.rstrip("\n").split("\n")


class Reading:
    """The definitions in reading order: sections by file, and where each definition stands."""

    def __init__(self, found):
        self.found = found
        self.by_place = {(d.module.path, d.name): d for d in found}
        self.sections, self.where = [], {}
        self.place()
        self.order()

    def place(self):
        """Every definition has its place in the table, and every place of the table a definition."""
        placed = set()
        for number, (file, title, groups) in enumerate(FILES, 1):
            path = f"crates/{file}"
            here = [(path, name) for _, _, names in groups for name in names]
            for place in here:
                if place not in self.by_place:
                    fail(f"the table has {place[1]} of {path}, which is no definition that {STATEMENT[1]} rests on")
                if place in placed:
                    fail(f"the table has {place[1]} twice")
                placed.add(place)
            module = self.by_place[here[0]].module
            places = [module.order.index(name) for _, name in here]
            if places != sorted(places):
                fail(f"the table has the definitions of {path} in another order than the file")
            self.sections.append((number, path, title, module, groups))
        for place in sorted(set(self.by_place) - placed):
            fail(f"{place[1]} ({place[0]}) has no words of document 01 or 02 in the table")

    def order(self):
        """Each definition stands after all that it uses."""
        for number, path, _, _, groups in self.sections:
            for n, (group, _, names) in enumerate(groups, 1):
                for name in names:
                    definition = self.by_place[(path, name)]
                    for other in self.found[definition][0]:
                        if other not in self.where:
                            fail(f"{name} stands before {other.name}, which it uses")
                    self.where[definition] = (f"{number}.{n}", f"{number}.{n} {group}")

    def link(self, definition):
        number, title = self.where[definition]
        return f"[{number}](#{anchor(title)})"

    def users(self, definitions):
        """Links to where some definitions are used, other than by themselves."""
        using = {d for d, (used, _, _) in self.found.items() if d not in definitions and used & definitions}
        places = {self.where[d]: d for d in using}
        return [self.link(d) for d in sorted(places.values(), key=self.order_of)]

    def lines(self):
        """The definitions, section by section, below the words that they render."""
        lines = []
        for number, path, title, module, groups in self.sections:
            opening = plain(" ".join(re.sub(r"^(--|//) ?", "", line) for line in module.opening))
            lines += [f"## {number}. {title}", "", *wrapped(f"`{path}`. {opening}"), ""]
            lines += quoted_lines(WHOLE.get(path.removeprefix("crates/"), []), False)
            for n, (group, said, names) in enumerate(groups, 1):
                here = [self.by_place[(path, name)] for name in names]
                lines += [f"### {number}.{n} {group}", ""]
                if said in (OWN, FURTHER):
                    lines += [*wrapped(f"{said} Used in {', '.join(self.users(set(here)))}."), ""]
                elif said[0] == FURTHER:
                    lines += [*wrapped(f"{FURTHER} Closest to it is:"), "", *quoted_lines(said[1:])]
                else:
                    lines += quoted_lines(said)
                lines.append("```")
                for position, definition in enumerate(here):
                    lines += ([""] if position else []) + definition.comment + definition.code
                lines += ["```", ""]
        return lines

    def index(self):
        names = [d.name for d in self.found]

        def shown(definition):
            """The name, and where several definitions have it, with the place."""
            return f"`{definition.name}`" + (f" ({self.where[definition][0]})" if names.count(definition.name) > 1 else "")

        lines = ["| definition | where | what it names |", "|---|---|---|"]
        for definition in sorted(self.found, key=lambda d: (d.name.lower(), d.name, self.order_of(d))):
            used = sorted(self.found[definition][0], key=lambda d: (d.name.lower(), d.name, self.order_of(d)))
            lines.append(f"| `{definition.name}` | {self.link(definition)} | {', '.join(map(shown, used))} |")
        return lines

    def order_of(self, definition):
        return [int(x) for x in self.where[definition][0].split(".")]


def kept_elsewhere():
    """The sentences that no definition renders, with where they are kept. A sentence that is not rendered, kept or overruled ends the program."""
    reasons = {}
    for text, reason in ELSEWHERE:
        _, key, words = passage(text)
        if key in RENDERED and is_whole(text):
            fail(f"ELSEWHERE has a sentence that a definition renders: {words}")
        for name, file in re.findall(r"`([^`]+)` \((crates/[^)]*)\)", reason):
            if not re.search(rf"^\s*((unfoldable|abbrev|pub|record|data) )*{re.escape(name)}[ (]", read(file), re.M):
                fail(f"{name} is not declared in {file}")
        for file in re.findall(r"(?<!\()\b((?:crates|docs|include)/[\w/.-]*\w)", reason):
            if not (ROOT / file).exists():
                fail(f"ELSEWHERE names {file}, which is not there")
        for number in re.findall(r"\bD\d+\b", reason):
            if f"- **{number}. " not in read("docs/DECISIONS.md"):
                fail(f"docs/DECISIONS.md has no {number}")
        reasons[key] = (words, reason)
    for letter in [*ACCOUNTED, *LANDED]:
        for n, (_, sentence) in enumerate(PAPERS[letter][1]):
            if (letter, n) not in RENDERED and (letter, n) not in reasons and re.search(r"\w", held((letter, n), sentence)):
                fail(f"no definition renders this sentence of {source(letter)}, and ELSEWHERE does not say where it is kept: {sentence}")
    return reasons


def account(letters, reasons):
    """How many sentences of some sections or requests are rendered, kept elsewhere, and overruled whole."""
    keys = [(letter, n) for letter in letters for n in range(len(PAPERS[letter][1]))]
    rendered, elsewhere = (sum(key in kept for key in keys) for kept in (RENDERED, set(reasons) - RENDERED))
    return f"{len(keys)}: {rendered} rendered here, {elsewhere} kept elsewhere, {len(keys) - rendered - elsewhere} overruled whole"


def library_names(found):
    """The libraries' names that the definitions use, each with a meaning in the table, and no other there."""
    names = {x for _, library, _ in found.values() for x in library}
    for source, name in sorted(names):
        if meaning(source, name) is None:
            fail(f"{name} of {source} has no meaning in the table LIBRARY")
    for name in sorted({*LANGUAGE, *LIBRARY} - {name for place, name in names if (place, name) not in OF_MODULE}):
        fail(f"the table LIBRARY has {name}, which no definition uses")
    for source, name in sorted(OF_MODULE.keys() - names):
        fail(f"the table OF_MODULE has {name} of {source}, which no definition uses")
    return names


def opening_of(values, facts, sections):
    """The first part of the page, with the figures put into their places, and links to the sections that it names."""
    text = (HERE / "reading-opening.md").read_text(encoding="utf-8")
    numbers = {title: number for number, _, title, _, _ in sections}
    for title in re.findall(r"@(?:section|number) ([^@]*)@", text):
        if title not in numbers:
            fail(f"reading-opening.md names a section '{title}', which the page does not have")
        number = numbers[title]
        text = text.replace(f"@section {title}@", f"[{number} {title}](#{anchor(f'{number}. {title}')})").replace(f"@number {title}@", str(number))
    for old, file in re.findall(r"(?m)^    sed -i 's/(.*)/.*/' (\S+)$", text):
        if old not in read(file):
            fail(f"reading-opening.md changes '{old}' in {file}, which does not have it")
    fields = set(re.findall(r"`([\w-]+)`", " ".join(re.findall(r"(?m)^\| (`.*?) \|", text.split("\n## A route")[0]))))
    for name in sorted(fields ^ {f for f in facts[0] if f != DEMAND}):
        fail(f"reading-opening.md and {STATEMENT[1]} do not both have the field {name}")
    for word, value in values.items():
        if f"@{word}@" not in text:
            fail(f"reading-opening.md has no place for @{word}@")
        text = text.replace(f"@{word}@", str(value))
    for fact in facts[1:]:
        if fact not in text:
            fail(f"reading-opening.md does not name {fact}")
    return text.rstrip("\n").split("\n")


def code_lines():
    """The contracts of the open functions, and the records that they are."""
    lines = wrapped("Not part of `Claims`, but what joins it to the code that is built: the contracts of the C functions, of plan over a lent list and of"
                    " what the plan program prints, in which the definitions above are cited. `image.old` is what a buffer holds before the call and `image.new`"
                    " what it holds after it, `image.now` what one holds that is lent for reading, and `result` what is returned. What stands between the braces"
                    " of an `ensures` is the fact that is promised; where there are several, each has a name. There is no `requires`: the contracts hold for all"
                    " arguments. In the records, `sets l i vs` is the list l with the entries of vs stored in turn from place i on, as far as l goes.")
    lines += ["", "```"]
    for path, names in GIVES:
        module = Module(Path(path).stem, path)
        lines += module.opening
        for name in names:
            lines += [*([""] if module.declared[name].comment else []), *module.declared[name].comment, *module.declared[name].code]
        lines.append("")
    for crate, name, cites in CODE:
        path, head = contract(crate, name, cites)
        lines += [f"// {path}", *head, ""]
    return lines[:-1] + ["```"]


def elsewhere_lines(reasons):
    titles = ", ".join(f'"{SECTIONS[letter]}"' for letter in SECTIONS if letter not in ACCOUNTED)
    lines = wrapped(f"Of document 01, all but {titles}, and of the requests of document 02 that have landed, these sentences, and these"
                    " words of others, are rendered by no definition of `Claims`:") + [""]
    for (letter, _), (words, reason) in reasons.items():
        of = "" if letter in SECTIONS else f"Document 02, ({letter}), "
        lines += wrapped(f"{of}\"{words.rstrip('.')}\": {reason}.", "- ", "  ")
    return lines


def overruled_lines():
    if not GONE:
        return wrapped("None: the requests of document 02 that have landed overrule nothing.")
    lines = wrapped("What is struck out holds no more; the words of the request that hold in its place stand beside it.") + [""]
    for key in sorted(GONE, key=lambda key: (list(PAPERS).index(key[0]), key[1])):
        heading, units = PAPERS[key[0]]
        lines += wrapped(f"**{heading}:** {marked(key, units[key[1]][1], True)}", "- ", "  ")
    return lines


def library_lines(names):
    lines = ["| name | module | meaning |", "|---|---|---|"]
    for name in [*LANGUAGE, *LIBRARY]:
        sources = sorted(source for source, other in names if other == name and (source, name) not in OF_MODULE)
        modules = ", ".join(source if source == "the language" else f"`{source}`" for source in sources)
        lines.append(f"| `{name}` | {modules} | {meaning(sources[0], name)} |".replace("`◌||◌`", "`◌\\|\\|◌`"))
    return lines + [f"| `{name}` | `{source}` | {words} |" for (source, name), words in OF_MODULE.items()]


def main():
    statement = module_of(f"Rattle.{PROVED_IN}.specs.{STATEMENT[0]}", "reading.py").declared[STATEMENT[1]]
    found = closure_of(statement)
    if not re.search(rf"^pub {re.escape(PROOF[0])} : {STATEMENT[1]}$", read(PROOF[1]), re.M):
        fail(f"{PROOF[1]} has no {PROOF[0]} : {STATEMENT[1]}")
    overrule()
    reading = Reading(found)
    quoted = quotations()
    body = reading.lines()
    reasons = kept_elsewhere()
    names = library_names(found)
    crates = proved()
    values = {
        "definitions": len(found),
        "structs": sum(1 for d in found if d.kind in ("struct", "enum")),
        "lines": sum(1 for d in found for line in d.code if line.strip()),
        "files": len({d.module.path for d in found}),
        "crates": len({d.module.path.split("/")[1] for d in found}),
        "names": len(names),
        "quoted": f"{quoted[0]} of document 01, {quoted[1]} of document 02",
        "document 01": account(ACCOUNTED, reasons),
        "landed": f"{len(LANDED)} of {len(REQUESTS)}",
        "document 02": account(LANDED, reasons),
        "verdicts": "\n".join(f"rt: {name} proved" for name in crates),
    }
    page = opening_of(values, (statement.fields, f"`{STATEMENT[1]}`", f"`{statement.module.path}`", f"`{PROOF[0]}` (`{PROOF[1]}`)"), reading.sections)
    tail = [("The contracts in code", code_lines()), ("Sentences that no definition renders", elsewhere_lines(reasons)),
            ("Sentences that are overruled", overruled_lines()),
            ("Names of the libraries", library_lines(names)), ("Index", reading.index())]
    page += ["", "## Contents", ""]
    for number, _, title, _, groups in reading.sections:
        count = sum(len(group[2]) for group in groups)
        page.append(f"{number}. [{title}](#{anchor(f'{number}. {title}')}), {count} definition{'s' if count > 1 else ''}")
    numbered = [(f"{n}. {title}", lines) for n, (title, lines) in enumerate(tail, len(reading.sections) + 1)]
    page += [f"{title.split('. ')[0]}. [{title.split('. ')[1]}](#{anchor(title)})" for title, _ in numbered]
    page += ["", *body]
    for title, lines in numbered:
        page += [f"## {title}", "", *lines, ""]
    sys.stdout.write("\n".join(page).rstrip("\n") + "\n")
    counts = ("{definitions} definitions, {lines} lines, {files} files; {names} library names; quotations in comments, all found: {quoted}; sentences of"
              " document 01, {document 01}; of document 02, {landed} requests, {document 02}").format(**values)
    print(f"{counts}; {len(crates)} crates proved, none with axioms", file=sys.stderr)


main()
