"""The crew of a random run: related routes, borders for entering trains, and the routes that bring
a train from there to its place."""


class Crew:
    """Routes and borders without duplicates, and `approaches`: each train's border and routes. A
    crew is gathered around a suspect, ("route", r) or ("border", x), or any route."""

    def __init__(self, relations, chance, suspects, most_others):
        self.relations, self.chance = relations, chance
        self.routes, self.borders, self.approaches = [], [], []
        around = chance.choice(suspects) if suspects and chance.random() < 0.95 else None
        if around is None and relations.touched:
            around = "route", chance.randrange(len(relations.touched))
        if around is not None:
            self.gather(around, chance.randint(1, most_others))
        if relations.touched:
            self.routes += [chance.randrange(len(relations.touched))
                            for _ in range(chance.choice((0, 0, 0, 1, 3)))]
        borders = list(relations.facts.inward)
        if borders and (not self.borders or chance.random() < 0.3):
            self.borders.append(chance.choice(borders))
        self.routes = list(dict.fromkeys(self.routes))
        self.borders = list(dict.fromkeys(self.borders))

    def gather(self, around, others):
        """Takes a suspect and some routes that meet it."""
        kind, number = around
        if kind == "route":
            self.join(number)
            met = self.relations.met[number]
        else:
            self.borders.append(number)
            self.approaches.append((number, []))
            met = self.relations.met_at_border[number]
        for _ in range(others):
            if met:
                other = self.chance.choice(met)
                self.join(other)
                if self.chance.random() < 0.3:
                    met = self.relations.met[other] or met
        if self.routes and self.chance.random() < 0.4:
            self.follow(self.chance.choice(self.routes))

    def join(self, r):
        """Takes a route, and those that bring a train to it."""
        before, border = self.relations.chain(self.chance, self.relations.facts.source[r])
        self.routes.append(r)
        if self.chance.random() < 0.5:
            self.routes += before
        if border is not None:
            self.borders.append(border)
            self.approaches.append((border, before))

    def follow(self, r):
        """Takes some routes that continue another."""
        for _ in range(self.chance.randint(1, 3)):
            if not self.relations.followers[r]:
                break
            r = self.chance.choice(self.relations.followers[r])
            self.routes.append(r)
