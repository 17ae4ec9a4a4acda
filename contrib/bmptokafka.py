"""The output `kafka` of bmp-mirror: a compacted topic. It is no part of what is proved.

The key of a message is that of `lines`; a row that is gone is a message without a value. A lane and its mark are in one partition, so in
one order; the operator makes the topic, with `cleanup.policy=compact`.
"""
import json
import time
import zlib

from confluent_kafka import OFFSET_BEGINNING, Consumer, KafkaException, Producer, TopicPartition

from bmpmirror import Away, Keyed, Mark

SECONDS = 30


class Kafka(Keyed):
    """A topic. A broker takes what two mirrors of one station write, and nothing here notices."""

    def __init__(self, station, say, given):
        super().__init__(station, say)
        self.words = {"bootstrap.servers": given.to or "127.0.0.1:9092", "client.id": f"bmp-mirror-{station}", "error_cb": lambda _: None,
                      "log_level": 0} | properties(given.properties)
        self.topic = given.topic
        self.producer = None

    def close(self):
        if self.producer is not None:
            self.producer.purge()
            self.producer = None

    def open(self):
        try:
            self.producer = Producer(self.words | {"enable.idempotence": True, "acks": "all", "compression.type": "lz4", "linger.ms": 20,
                                                   "message.timeout.ms": 2 * SECONDS * 1000})
            topic = self.producer.list_topics(self.topic, timeout=SECONDS).topics[self.topic]
        except KafkaException as fault:
            raise Away(f"Kafka: {fault.args[0].str()}") from fault
        if topic.error is not None or not topic.partitions:
            raise Away(f"Kafka: the topic {self.topic}: {topic.error or 'no partitions'}")
        self.partitions = len(topic.partitions)
        self.fault = None

    def partition(self, router):
        return zlib.crc32(self.texts.key(router).encode()) % self.partitions

    def each(self, partitions):
        """The key and the value of each message of these partitions, up to the ends that stand now."""
        consumer = Consumer(self.words | {"group.id": f"bmp-mirror-{self.texts.station}", "enable.auto.commit": False,
                                          "enable.partition.eof": False})
        try:
            ends = {}
            for partition in partitions:
                low, high = consumer.get_watermark_offsets(TopicPartition(self.topic, partition), timeout=SECONDS)
                if high > low:
                    ends[partition] = high
            consumer.assign([TopicPartition(self.topic, partition, OFFSET_BEGINNING) for partition in ends])
            end = time.monotonic() + SECONDS
            while ends:
                for message in consumer.consume(10_000, 1.0):
                    if message.error():
                        raise Away(f"Kafka: {message.error().str()}")
                    end = time.monotonic() + SECONDS
                    if message.offset() < ends.get(message.partition(), 0) and message.key():
                        yield message.key().decode(), message.value()
                for where in consumer.position([TopicPartition(self.topic, partition) for partition in ends]):
                    if where.offset >= ends[where.partition]:
                        del ends[where.partition]
                if time.monotonic() > end:
                    raise Away("Kafka: the topic isn't told to its end")
        except KafkaException as fault:
            raise Away(f"Kafka: {fault.args[0].str()}") from fault
        finally:
            consumer.close()

    def have(self):
        """All that is there of the station is read."""
        self.lanes.clear()
        self.told = {}
        marks = {}
        for key, value in self.each(range(self.partitions)):
            station, *words = key.split(" ", 3)
            if station == self.texts.station and words:
                self.learn(marks, key, words, value)
        for router in self.lanes:
            marks.setdefault(router, None)
        return marks

    def learn(self, marks, key, words, value):
        router = int(words[0])
        if len(words) == 1:
            marks[router] = mark_of(value) if value else None
        elif len(words) == 2:
            self.told[key] = value and value.decode()
            if value is None:
                del self.told[key]
        elif value is None:
            self.lanes[router].forget(words[1], words[2])
        else:
            self.lanes[router].learn(words[1], words[2], self.digest(value.decode()))

    def put(self, router, key, value):
        while True:
            try:
                self.producer.produce(self.topic, value, key, partition=self.partition(router), on_delivery=self.delivered)
                break
            except BufferError:
                self.producer.poll(0.1)
            except KafkaException as fault:
                raise Away(f"Kafka: {fault.args[0].str()}") from fault
            self.check()
        self.producer.poll(0)

    def delivered(self, fault, _):
        if fault is not None:
            self.fault = fault

    def check(self):
        if self.fault is not None:
            raise Away(f"Kafka: {self.fault.str()}")

    def flush(self):
        left = self.producer.flush(2 * SECONDS)
        self.check()
        if left:
            raise Away(f"Kafka: {left} messages aren't acknowledged")

    def put_mark(self, router, mark, held):
        self.flush()
        self.put(router, self.texts.key(router), self.texts.mark(router, mark))
        self.flush()


def properties(path):
    """The words of librdkafka in a file, one a line."""
    if path is None:
        return {}
    with open(path) as lines:
        pairs = (line.strip().partition("=") for line in lines if line.strip() and not line.startswith("#"))
        return {name.strip(): value.strip() for name, _, value in pairs}


def mark_of(value):
    fields = json.loads(value)
    return Mark(fields["run"], fields["step"], fields["revision"], fields["rows"])
