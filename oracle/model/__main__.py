"""python3 -m model [words]: the report over the current folder.

The environment variable MODEL_UNBUILT names what is refused as not built (`workers`; what the program
refuses today, where it isn't there; nothing, where it is empty), and MODEL_FEATURES what the model has beyond the
program (names separated by commas, or `all`)."""
import os
import sys

from .runner import ALL, UNBUILT, Run, features_of, folder_files, unbuilt_of


def go():
    names = [n for n in os.environ.get("MODEL_FEATURES", "").split(",") if n]
    if names == ["all"]:
        names = ALL
    features = features_of(names)
    cache = None
    place = os.path.join(".pytest_cache", "cache.json")
    if features.last_failed and os.path.exists(place):
        with open(place, "rb") as f:
            cache = f.read()
    unbuilt = os.environ.get("MODEL_UNBUILT")
    unbuilt = UNBUILT if unbuilt is None else unbuilt_of(unbuilt)
    done = Run(sys.argv[1:], folder_files("."), features, cache, unbuilt=unbuilt).result()
    sys.stdout.buffer.write(done.output)
    sys.stdout.buffer.flush()
    if done.saved is not None:
        os.makedirs(".pytest_cache", exist_ok=True)
        with open(place, "wb") as f:
            f.write(done.saved)
    return done.status


if __name__ == "__main__":
    import threading
    threading.stack_size(512 * 1024 * 1024)
    box = []
    thread = threading.Thread(target=lambda: box.append(go()))
    thread.start()
    thread.join()
    sys.exit(box[0] if box else 70)
