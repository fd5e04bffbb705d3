"""An index over the machines of a Dask cluster: a partition of the documents for each source, searched together.

    from distributed import Client
    import dilforec
    from dilforec.cluster import Cluster

    schema = [dilforec.text("message", default=True), dilforec.keyword("level"), dilforec.u64("time")]
    with Client("tcp://scheduler:8786") as client, Cluster(client, schema, ["day1.jsonl", "day2.jsonl"]) as logs:
        answer = logs.search("timeout", groups=["level"], top=dilforec.Top("time", 10, "falling"))

It needs Dask: `pip install dilforec[cluster]`. Dask says where partitions are made, and makes those of a lost worker
again on another from their sources. Searches go to the workers themselves; docs/SCALE.md has the whole of it.

From the top down: `_cluster` is what callers see; `_searches` makes one reply of the answers to a line; `_rounds` sends
the searches of many threads together; `_gathering` sees to it that each partition answers once; `_plan` has which
worker is asked for which, by the addresses of `_places`; `_connections` has the ways to workers, each a `_connection`
of `_frames` to a `_listener`, or Dask's rpc; `_requests` is what goes there; `_responder` answers on a worker;
`_partials` joins; `_partitions` makes the index of a source, and `_sources` reads it.
"""
from dilforec.cluster._cluster import Cluster, Counts, Search
from dilforec.cluster._partitions import PartitionLost, Refusal, SourceChanged, SourceRefused, SourceUnreadable
from dilforec.cluster._sources import Documents, JsonLines, Script, Source

__all__ = [
    "Cluster", "Counts", "Documents", "JsonLines", "PartitionLost", "Refusal", "Script", "Search", "Source",
    "SourceChanged", "SourceRefused", "SourceUnreadable",
]
