"""A function with one cell: it counts how often each name was greeted, greets, and tells a second function of it."""
import sys

from statefun_http import INT, serve, text_of


def greeter(context, letter):
    name = text_of(letter)
    if name is None:
        return
    seen = context.get_int("seen") + 1
    context.set_int("seen", seen)
    context.give("greetings", f"hello {name} {seen}")
    context.send("audience", "all", name)


def audience(context, letter):
    context.give("greetings", f"{text_of(letter)} was greeted")


serve(int(sys.argv[1]), {"com.example/greeter": ({"seen": INT}, greeter), "com.example/audience": ({}, audience)})
