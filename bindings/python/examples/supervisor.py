"""A supervisor on one desk: it traps exits, gets one for each worker that crashes, and starts the next."""

from pundewo import Desk, Pick, Reason, open_node


def run(desk: Desk) -> None:
    """Turns the desk until nothing is handled."""
    while desk.turn().handled:
        pass


def main() -> None:
    (desk,) = open_node()
    boss = desk.spawn()
    desk.trap(boss)
    worker = desk.spawn_child(boss, linked=True)
    for number in range(1, 4):
        desk.exit(worker, Reason("other", number))
        run(desk)
        exited = desk.receive(boss, Pick("exit-of", worker))
        worker = desk.spawn_child(boss, linked=True)
        print(f"{exited}, restarted as {worker}")


if __name__ == "__main__":
    main()
