#!/usr/bin/env python3
"""Worked rows of the reference, by hand and by the standards: reference/test_reference.py

Orders, codes, bounds, cells, trees, sizes and draws over maps small enough to be worked out on paper, SHA-256 by the
examples of FIPS 180-4, and what no vector can show: two texts with one digest, over a hash that adds up octets. Nothing here
is proved, and no client trusts it.
"""
import hashlib
import pathlib
import sys
import unittest
from dataclasses import replace

sys.path.insert(0, str(pathlib.Path(__file__).resolve().parent))

from gogbetiku_reference.cells import borders_of, cells_of  # noqa: E402
from gogbetiku_reference.draws import Draw, grid  # noqa: E402
from gogbetiku_reference.faults import Fault  # noqa: E402
from gogbetiku_reference.hashing import sha256  # noqa: E402
from gogbetiku_reference.landmarks import are_apart, bound, codes_of, pick, references_of, step_of  # noqa: E402
from gogbetiku_reference.leaves import NO_WALK, Near, NodeLeaf, Own  # noqa: E402
from gogbetiku_reference.maps import Parts, map_of  # noqa: E402
from gogbetiku_reference.orders import ORDERS, order_of  # noqa: E402
from gogbetiku_reference.publications import Settings  # noqa: E402
from gogbetiku_reference.books import book_of  # noqa: E402
from gogbetiku_reference.servers import answer, answer_near, gathered, gathered_apart  # noqa: E402
from gogbetiku_reference.surveys import survey  # noqa: E402
from gogbetiku_reference.trees import clash, cover_of, fold, levels_of, root_of  # noqa: E402
from gogbetiku_vectors.scenes import LINE, LINE_LDM, STREETS, published, settings_of  # noqa: E402


def adding(text: bytes) -> bytes:
    """A hash that many texts share: the sum of the octets."""
    return bytes(31) + bytes([sum(text) % 256])


class Rows(unittest.TestCase):
    def test_sha256(self) -> None:
        abc = "ba7816bf8f01cfea414140de5dae2223b00361a396177a9cb410ff61f20015ad"
        self.assertEqual(sha256(b"abc").hex(), abc)
        for length in (0, 1, 55, 56, 64, 119, 1000):
            self.assertEqual(sha256(bytes(length)), hashlib.sha256(bytes(length)).digest())

    def test_orders_of_five_nodes(self) -> None:
        chart = map_of(STREETS)
        by_hand = {
            "id": [1, 2, 3, 4, 5],
            "breadth": [1, 2, 4, 3, 5],
            "depth": [1, 2, 3, 4, 5],
            "hilbert": [1, 4, 2, 3, 5],
            "kd": [1, 2, 4, 3, 5],
        }
        for name, ids in by_hand.items():
            self.assertEqual(order_of(chart, ORDERS[name], 0), ids, name)

    def test_depth_goes_wholly_into_a_neighbour(self) -> None:
        square = Parts(((1, 0, 0), (2, 0, 0), (3, 0, 0), (4, 0, 0)), ((1, 2, 1), (1, 3, 1), (2, 4, 1), (4, 3, 1)))
        self.assertEqual(order_of(map_of(square), ORDERS["depth"], 0), [1, 2, 4, 3])

    def test_codes_of_five_nodes(self) -> None:
        chart = map_of(STREETS)
        self.assertEqual(pick(chart, 2), [1, 5])
        self.assertEqual(step_of(chart, [1], 2), 4)
        codes = codes_of(chart, [1], 4)
        self.assertEqual(codes, {1: (0,), 2: (1,), 3: (2,), 4: (0,), 5: (65_535,)})
        self.assertEqual(references_of(codes, [1, 2, 3, 4, 5], 0)[4], Near(1, 0))

    def test_bounds_of_five_nodes(self) -> None:
        leaves = book_of(STREETS, settings_of("ldm")).leaves
        self.assertEqual([bound(4, leaves, node, 3) for node in (1, 2, 4)], [4, 0, 4])
        without = {node: leaf for node, leaf in leaves.items() if node != 1}
        self.assertEqual(bound(4, without, 4, 3), 0)
        self.assertTrue(are_apart(leaves, 1, 5))
        self.assertFalse(are_apart(without, 4, 5))

    def test_the_latest_of_the_last_64_stands_for_a_node(self) -> None:
        codes: dict[int, tuple[int, ...]] = {node: (2 * node,) for node in range(70)} | {
            70: (138,),
            71: (0,),
            72: (10,),
        }
        said = references_of(codes, list(range(73)), 0)
        self.assertEqual((said[70], said[71], said[72]), (Near(69, 0), Own((0,)), Own((10,))))

    def test_cells_of_five_nodes(self) -> None:
        chart = map_of(STREETS)
        cells = cells_of(chart, 3, 1)
        self.assertEqual(cells, {1: 0, 2: 0, 3: 1, 4: 0, 5: 2})
        self.assertEqual(borders_of(chart, cells), [2, 3, 4])

    def test_pairs_of_five_nodes(self) -> None:
        full, hyp = book_of(STREETS, settings_of("full")), book_of(STREETS, settings_of("hyp"))
        self.assertEqual((full.pair_ids[1], full.pairs[1].distance, full.pairs[3].distance), ((1, 3), 9, NO_WALK))
        self.assertEqual([(leaf.a, leaf.b, leaf.distance) for leaf in hyp.pairs], [(2, 3, 5), (2, 4, 7), (3, 4, 7)])

    def test_what_is_gathered(self) -> None:
        line = book_of(LINE, settings_of("ldm", parameters=LINE_LDM))
        self.assertEqual(gathered(line, 3, 5, (3, 4, 5), 20)[0], {2, 3, 4, 5})
        hyp = book_of(STREETS, settings_of("hyp"))
        self.assertEqual(gathered(hyp, 1, 3, (1, 2, 3), 9), ({1, 2, 3, 4}, {(2, 3), (3, 4)}))
        self.assertEqual(gathered_apart(hyp, 1, 5), ({1, 2, 4, 5}, set()))

    def test_sizes(self) -> None:
        held = published(STREETS, settings_of("dij"))
        self.assertEqual([len(level) for level in held.book.node_levels], [5, 3, 2, 1])
        self.assertEqual(
            (len(held.publication.octets()), len(answer(held, 1, 3)), len(answer_near(held, 1, 4))), (1550, 1611, 1585)
        )
        leaf = "4e000000010000000000000000000200000002000000040000000400000003"
        self.assertEqual(held.book.node_texts[0].hex(), leaf)

    def test_too_many_for_a_book(self) -> None:
        nodes = Parts(tuple((node, node, 0) for node in range(1025)), ())
        with self.assertRaisesRegex(Fault, "TooManyNodes 1025"):
            book_of(nodes, settings_of("full"))
        rows = Parts(
            tuple((node, node % 2, 0) for node in range(2050)), tuple((node, node + 1, 1) for node in range(0, 2050, 2))
        )
        with self.assertRaisesRegex(Fault, "TooManyBorders 2050"):
            book_of(rows, Settings(4, 1, 0, 0, 2, 2, 1, 0))

    def test_draws(self) -> None:
        for seed, numbers in ((0, [0, 21468, 9988, 22117]), (1, [16838, 5758, 10113, 17515, 31051, 5627, 23010, 7419])):
            draw = Draw(seed)
            self.assertEqual([draw.next() for _ in numbers], numbers)
        self.assertEqual(grid(2, 0).roads, ((1, 2, 1), (1, 3, 469), (2, 4, 989), (3, 4, 118)))
        self.assertTrue(survey(2, 0, 1, 2).startswith("queries 2 accepted 2 total 118 digest "))

    def test_one_leaf(self) -> None:
        text = bytes.fromhex("4e00000007ffffffff000000020000")
        self.assertEqual(root_of([text], 2), sha256(b"\0" + text))
        self.assertEqual(NodeLeaf(7, -1, 2, ()).text(), text)

    def test_two_texts_with_one_digest(self) -> None:
        texts = [b"ab", b"cd", b"ef"]
        cover = cover_of(levels_of(texts, 2, adding), 2, [0])
        self.assertEqual(fold(3, 2, [0], [b"ba"], cover, adding), root_of(texts, 2, adding))
        self.assertEqual(clash(texts, 2, [0], [b"ba"], cover, adding), (b"\0ab", b"\0ba"))
        self.assertIsNone(clash(texts, 2, [0], [b"ab"], cover, adding))
        other = [cover[0][:30] + bytes([1, cover[0][31] - 1]), cover[1]]
        found = clash(texts, 2, [0], [b"ab"], other, adding)
        assert found is not None
        self.assertEqual((found[0][0], found[1][0], found[0] != found[1]), (1, 1, True))

    def test_a_reply_is_its_octets(self) -> None:
        held = published(STREETS, settings_of("hyp"))
        self.assertEqual(replace(held.publication).octets(), held.publication.octets())


if __name__ == "__main__":
    unittest.main()
