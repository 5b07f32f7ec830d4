"""Blobs in a bucket of S3, on Debian's python3-boto3, which finds credentials where AWS's own tools do."""
import contextlib
from collections.abc import Iterator

import boto3
import botocore.awsrequest
import botocore.config
import botocore.exceptions
import botocore.parsers
import botocore.response
import urllib3.exceptions
from boto3.s3.transfer import TransferConfig

from . import blobs

# The bytes of a part of a large upload: a bucket takes 10,000 parts. Two are in memory at a time.
PART = 16 << 20
# A request is tried this often, and each try may take this many seconds without a byte.
TRIES, SECONDS = 4, 30
# The bytes of an answer that isn't a blob, such as a listing of a thousand, and the blobs of a bucket.
LONGEST, MOST = 16 << 20, 2_000_000
# The deleted blobs that are remembered.
GONE = 100_000


class Answer(botocore.awsrequest.AWSResponse):
    """An answer of a bucket. One without an end would fill the memory, and botocore has no limit for it."""

    @property
    def content(self) -> bytes:
        if self._content is None:
            content = bytearray()
            try:
                for piece in self.raw.stream():
                    content += piece
                    if len(content) > LONGEST:
                        self.raw.close()
                        raise botocore.exceptions.HTTPClientError(error=f"it has more than {LONGEST} bytes")
            except urllib3.exceptions.HTTPError as error:
                raise botocore.exceptions.HTTPClientError(error=error) from error
            self._content = bytes(content)
        return self._content


botocore.awsrequest.AWSResponse = Answer


@contextlib.contextmanager
def answered(about):
    """Raises Failed for what a bucket refuses, and for one that fails or can't be reached."""
    try:
        yield
    except (botocore.exceptions.BotoCoreError, botocore.exceptions.ClientError, boto3.exceptions.Boto3Error) as error:
        raise blobs.Failed(f"{about}: {str(error) or type(error).__name__}".replace("\n", " ")) from error
    except (botocore.parsers.ResponseParserError, ArithmeticError, AttributeError, LookupError, RuntimeError, TypeError,
            ValueError) as error:
        # (something else answers in its place, or a bucket that points to another one again and again)
        raise blobs.Failed(f"{about}: its answer isn't that of a bucket: {error!r}"[:500]) from error


class Opened:
    """The bytes of an object, which `size` says how many there are."""

    def __init__(self, where: str, body: botocore.response.StreamingBody):
        self.where, self.body = where, body

    def read(self, count: int) -> bytes:
        try:
            with answered(self.where):
                return self.body.read(count)
        except OSError as error:
            # (what botocore doesn't wrap is urllib3's)
            raise blobs.Failed(f"{self.where}: {error}") from error

    def close(self) -> None:
        self.body.close()


class Bucket:
    def __init__(self, bucket: str, prefix: str, parts: str, endpoint: str | None = None):
        self.bucket, self.prefix, self.where = bucket, f"{prefix.strip('/')}/".lstrip("/"), f"s3://{bucket}/{prefix}"
        self.parts = blobs.Parts(parts)
        self.part = self.parts.part
        config = botocore.config.Config(retries={"max_attempts": TRIES, "mode": "standard"}, connect_timeout=SECONDS,
                                        read_timeout=SECONDS, s3={"addressing_style": "path"})
        with answered(self.where):
            self.client = boto3.client("s3", endpoint_url=endpoint, config=config)
        self.transfer = TransferConfig(multipart_threshold=PART, multipart_chunksize=PART, max_concurrency=2)
        # What was deleted here. A bucket of many machines may still have it for a while, and no more after that: an
        # upload that relied on it would lose its archive.
        self.gone = {}

    def key(self, name: str) -> dict[str, str]:
        return {"Bucket": self.bucket, "Key": f"{self.prefix}{blobs.key_of(name)}"}

    def begin(self) -> None:
        self.parts.begin()
        self.answer()

    def answer(self) -> None:
        with answered(self.where):
            self.client.head_bucket(Bucket=self.bucket)

    def put(self, part: str, name: str) -> bool:
        """A bucket shows an object once it is whole."""
        if self.size(name) is not None:
            return False
        with answered(self.where):
            self.client.upload_file(part, *self.key(name).values(), Config=self.transfer)
        self.gone.pop(name, None)
        return True

    def size(self, name: str) -> int | None:
        if name in self.gone:
            return None
        try:
            with answered(self.where):
                return self.client.head_object(**self.key(name))["ContentLength"]
        except blobs.Failed as failed:
            # (a bucket that doesn't answer has None there)
            answer = getattr(failed.__cause__, "response", None) or {}
            if answer.get("Error", {}).get("Code") in ("404", "NoSuchKey", "NotFound"):
                return None
            raise

    def open(self, name: str, at: int = 0) -> Opened:
        more = {"Range": f"bytes={at}-"} if at else {}
        with answered(self.where):
            reply = self.client.get_object(**self.key(name), **more)
        if at and not reply.get("ContentRange", "").startswith(f"bytes {at}-"):
            reply["Body"].close()
            raise blobs.Failed(f"{self.where}: it has sent another part than from byte {at} on")
        return Opened(self.where, reply["Body"])

    def list(self) -> Iterator[blobs.Blob]:
        count = 0
        with answered(self.where):
            for page in self.client.get_paginator("list_objects_v2").paginate(Bucket=self.bucket, Prefix=self.prefix):
                for item in page.get("Contents", []):
                    name = blobs.named(item["Key"].removeprefix(self.prefix))
                    if name and name not in self.gone:
                        count += 1
                        yield blobs.Blob(name, item["Size"], item["LastModified"].timestamp())
                if count > MOST:
                    raise blobs.Failed(f"{self.where}: it lists more than {MOST} blobs")

    def delete(self, name: str) -> None:
        with answered(self.where):
            self.client.delete_object(**self.key(name))
        self.gone[name] = None
        if len(self.gone) > GONE:
            self.gone.pop(next(iter(self.gone)), None)
