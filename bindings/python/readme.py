import dilluvas

with dilluvas.open("fruit.db") as db:
    fruit = db["fruit"]
    fruit[b"lime"] = b"green"
    fruit[b"fig"] = b"violet"
    db.flush()
    for name, colour in fruit.items():
        print(name.decode(), "=", colour.decode())
