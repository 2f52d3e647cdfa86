from phonenumber_proved import Database, Kind

with Database.load() as world:
    text = "Ring 03-331 6005, or +1 650 253 0000"
    for start, end, number in world.find(text, "NZ"):
        print(text[start:end], number.dialled_from("DE"))  # 03-331 6005 00 64 3 331 6005
    example = world.example("DE", Kind.MOBILE)
    print(example, world.compare(example.e164, "01512 3456789").name)  # +4915123456789 NATIONAL
