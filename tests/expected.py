"""Cases of the five calls, each with the answer that the models give it: pairs of lines for `answer_orders` or `answer_searches`."""
import order_model
import read_model
import search_model
from case_lines import FILL, line, order_line, record_bytes, record_words, read_case, search_case
from read_model import Refused


def refusal(refused):
    return "refused", refused.number, refused.file


def read(file):
    try:
        graph = read_model.read(file)
        words = "graph", int(graph.directed), len(graph.labels), len(graph.edges)
    except Refused as refused:
        words = refusal(refused)
    return read_case("read", 0, file), line(*words)


def ordered(call, file, buffer):
    """call is byid or vf2pp."""
    try:
        answer = order_line(order_model.node_order(read_model.read(file), call == "vf2pp"), buffer)
    except Refused as refused:
        answer = line(*refusal(refused), *[FILL] * buffer)
    return read_case(call, buffer, file), answer


def started(file0, file1, settings):
    try:
        words = "started", *record_words(search_model.start(file0, file1, settings))
    except Refused as refused:
        words = refusal(refused)
    return search_case("start", file0, file1, settings), line(*words)


def continued(file0, file1, settings, record, budget, size):
    """size is the buffer's length."""
    buffer = bytes([FILL] * size)
    try:
        *words, after, filled = search_model.continue_search(file0, file1, settings, record, budget, buffer)
    except Refused as refused:
        words, after, filled = refusal(refused), record, buffer
    answer = line(*words, *record_words(after), "buffer", *filled)
    return search_case("conti", file0, file1, settings, record_bytes(record), budget, size), answer


def checked(file0, file1, settings, images):
    try:
        words = ["yes" if search_model.check(file0, file1, settings, images) else "no"]
    except Refused as refused:
        words = refusal(refused)
    return search_case("kheck", file0, file1, settings, bytes(images)), line(*words)
