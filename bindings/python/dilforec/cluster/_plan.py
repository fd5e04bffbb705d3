"""Which worker is asked for which partitions."""
from __future__ import annotations

import collections
import pickle
from collections.abc import Collection, Mapping, Sequence

from dilforec.cluster._places import Part, Places
from dilforec.cluster._requests import Wanted


class Plan:
    """What each worker is asked for, if these partitions or a part of them are wanted.

    For all of them that takes some time, so it is kept, as it is sent, until a place changes.
    """

    def __init__(self, places: Places, parts: Sequence[Part]) -> None:
        self.places, self.parts = places, tuple(parts)
        # What all partitions take, and after how many changes of the places that was right.
        self._kept: dict[str, bytes] = {}
        self._changes = -1

    async def wanted(
        self, ranks: Sequence[int], unmade: Mapping[int, Collection[str]],
    ) -> tuple[dict[str, bytes], list[int]]:
        """The pickled Wanteds of each worker, by its address, for some partitions, and those that no worker has.

        `unmade` has the workers that have the source of a partition alone; if there are no others, the first makes it.
        """
        are_all = len(ranks) == len(self.parts) and not unmade
        if are_all and self._changes == self.places.changes:
            return self._kept, []
        holders = await self.places.find(self.parts[rank] for rank in ranks)
        by_address: dict[str, list[Wanted]] = collections.defaultdict(list)
        homeless = []
        for rank in ranks:
            addresses = holders[self.parts[rank].future.key]
            if addresses:
                makers = [address for address in addresses if address not in unmade.get(rank, ())]
                by_address[makers[0] if makers else addresses[0]].append(self._of(rank, make=not makers))
            else:
                homeless.append(rank)
        wanted = {address: pickle.dumps(each, protocol=5) for address, each in by_address.items()}
        if are_all and not homeless:
            self._kept, self._changes = wanted, self.places.changes
        return wanted, homeless

    def _of(self, rank: int, make: bool) -> Wanted:
        part = self.parts[rank]
        return Wanted(rank, part.future.key, part.summary.digest if part.summary else None, make)
