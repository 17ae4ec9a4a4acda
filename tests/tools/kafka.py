#!/usr/bin/env python3
"""A broker of Kafka for the tests, and one who reads there, each as a process of its own.

    kafka.py broker           librdkafka's mock of a broker: it says its address, and ends with its standard input
    kafka.py read BROKER      each message of the topic, as a line of JSON: its partition, its key and its value
"""
import json
import sys

import confluent_kafka

TOPIC = "bmp"


def broker():
    producer = confluent_kafka.Producer({"test.mock.num.brokers": 1, "log_level": 0})
    for one in producer.list_topics(timeout=10).brokers.values():
        print(f"{one.host}:{one.port}", flush=True)
    sys.stdin.read()


def read(where):
    consumer = confluent_kafka.Consumer({"bootstrap.servers": where, "group.id": "test", "enable.auto.commit": False, "log_level": 0,
                                         "error_cb": lambda _: None, "fetch.wait.max.ms": 20})
    partitions = consumer.list_topics(TOPIC, timeout=10).topics[TOPIC].partitions
    consumer.assign([confluent_kafka.TopicPartition(TOPIC, partition, confluent_kafka.OFFSET_BEGINNING) for partition in partitions])
    print("ready", flush=True)
    while True:
        for message in consumer.consume(1000, 0.05):
            if not message.error():
                value = message.value()
                print(json.dumps([message.partition(), message.key().decode(), value and value.decode()]))
        sys.stdout.flush()


if sys.argv[1] == "broker":
    broker()
else:
    read(sys.argv[2])
