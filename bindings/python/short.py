from phonenumber_proved import Database, Mode

with Database.load() as world:
    number = world.parse("03-331 6005", hint="NZ")
    print(number.e164, number.format(Mode.NATIONAL))  # +6433316005 03 331 6005
    print(number.kind.name, number.region)  # FIXED_LINE NZ
    print(number.is_valid)  # True
