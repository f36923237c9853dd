#!/usr/bin/env python3
"""A broker for bridges.py that clients reach as Kafka, by librdkafka's mock of a cluster: one broker, and a topic `pmu` of four partitions in memory.

    python3 bench/kafka_broker.py

It prints its address, HOST:PORT. At a line `down` it closes its connections and its port, and at a line `up` it opens the port again, with all that it
took, as after a restart of a broker with a log on disk; it prints the line when that is done, and ends where its standard input ends. A partition keeps
5 MB at most, and its sequence numbers are not checked: it takes again what a client sends again. Of Debian's packages it needs librdkafka1.
"""
import ctypes
import sys


def main():
    kafka, pointer, why = ctypes.CDLL("librdkafka.so.1"), ctypes.c_void_p, ctypes.create_string_buffer(512)
    for name, result, *takes in [("conf_new", pointer), ("conf_set", ctypes.c_int, pointer, ctypes.c_char_p, ctypes.c_char_p, pointer, ctypes.c_size_t),
                                 ("new", pointer, ctypes.c_int, pointer, pointer, ctypes.c_size_t), ("mock_cluster_new", pointer, pointer, ctypes.c_int),
                                 ("mock_cluster_bootstraps", ctypes.c_char_p, pointer),
                                 ("mock_topic_create", ctypes.c_int, pointer, ctypes.c_char_p, ctypes.c_int, ctypes.c_int),
                                 ("mock_broker_set_down", ctypes.c_int, pointer, ctypes.c_int32),
                                 ("mock_broker_set_up", ctypes.c_int, pointer, ctypes.c_int32)]:
        function = getattr(kafka, f"rd_kafka_{name}")
        function.restype, function.argtypes = result, takes
    conf = kafka.rd_kafka_conf_new()
    kafka.rd_kafka_conf_set(conf, b"log_level", b"3", why, len(why))
    # A producer (0) owns the cluster and sends nothing.
    owner = kafka.rd_kafka_new(0, conf, why, len(why))
    cluster = owner and kafka.rd_kafka_mock_cluster_new(owner, 1)
    if not cluster or kafka.rd_kafka_mock_topic_create(cluster, b"pmu", 4, 1):
        sys.exit(f"no mock of a cluster: {why.value.decode()}")
    print(kafka.rd_kafka_mock_cluster_bootstraps(cluster).decode(), flush=True)
    for line in sys.stdin:
        change = {"down": kafka.rd_kafka_mock_broker_set_down, "up": kafka.rd_kafka_mock_broker_set_up}[line.strip()]
        if change(cluster, 1):
            sys.exit(f"`{line.strip()}` is refused")
        print(line.strip(), flush=True)


if __name__ == "__main__":
    main()
