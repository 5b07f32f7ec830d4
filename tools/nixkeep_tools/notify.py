"""What a program says to systemd, where that has started it: sd_notify(3)."""
import os
import socket


def notify(text: str) -> None:
    """Sends a state such as `READY=1` to systemd. Without systemd nothing is sent."""
    place = os.environ.get("NOTIFY_SOCKET", "")
    if place.startswith(("/", "@")):
        with socket.socket(socket.AF_UNIX, socket.SOCK_DGRAM | socket.SOCK_CLOEXEC) as connected:
            connected.connect(place.replace("@", "\0", 1) if place[0] == "@" else place)
            connected.send(text.encode())
