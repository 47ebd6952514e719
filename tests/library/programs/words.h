// The dictionary: each word with its gloss.
#define WORDS(W) \
	W(aqua, "water, in a cup as in the sea; also rain") \
	W(ager, "a field that is ploughed; land that belongs to a town") \
	W(amicus, "a friend, one who comes also when it rains") \
	W(amo, "I love; the first word of the first table of verbs") \
	W(animal, "a being that breathes; so also the hearer of this gloss") \
	W(annus, "a year, from one spring to the next") \
	W(arbor, "a tree; it is of the feminine gender, whatever its ending") \
	W(arma, "arms, tools of war; it has no singular") \
	W(ars, "a skill that is learnt and can be taught") \
	W(audio, "I hear; from it comes the audience of a speaker") \
	W(aurum, "gold; its colour is that of ripe barley") \
	W(avis, "a bird; from its flight things to come were read") \
	W(bellum, "war; not to be confused with what is beautiful") \
	W(bonus, "good; better is melior, best is optimus") \
	W(bos, "an ox or a cow; with two of them a field is ploughed") \
	W(caelum, "the sky; the place from which weather comes") \
	W(campus, "a plain, open ground where nothing is in the way") \
	W(canis, "a dog; it guards the door and is written on the floor there") \
	W(capio, "I take, I seize; what is taken is captum") \
	W(caput, "the head; also the chief town of a land") \
	W(carmen, "a song, a poem; it is neuter and has carminis") \
	W(castra, "a camp; it has no singular in this sense") \
	W(causa, "a cause, a reason; with a genitive: for the sake of") \
	W(cena, "dinner, the meal late in the day") \
	W(civis, "a citizen, who may vote and must serve") \
	W(clamo, "I shout; he who shouts much is not heard") \
	W(collis, "a hill; seven of them carry one city") \
	W(consul, "one of two who rule for a year") \
	W(corpus, "a body; also a collection of all that was written") \
	W(cras, "tomorrow; it never comes, says the proverb") \
	W(cura, "care; it sits behind the rider") \
	W(curro, "I run; its perfect is doubled, cucurri") \
	W(dens, "a tooth; it is masculine") \
	W(deus, "a god; the nominative plural is also di") \
	W(dico, "I say; the imperative is dic, without a vowel") \
	W(dies, "a day; feminine if a date is meant") \
	W(digitus, "a finger; also the width of one, the smallest measure") \
	W(discipulus, "a pupil, one who learns") \
	W(do, "I give; its a is short, other than in most of its table") \
	W(doceo, "I teach, with two accusatives: whom and what") \
	W(domus, "a house; it mixes two declensions") \
	W(donum, "a gift; beware of those who bring them") \
	W(dormio, "I sleep; students are told not to") \
	W(duco, "I lead; the imperative is duc") \
	W(dulcis, "sweet; also said of one's own land") \
	W(equus, "a horse; the wooden one held soldiers") \
	W(erro, "I wander, I am wrong; it is human") \
	W(fabula, "a story that is told, true or not") \
	W(femina, "a woman; hence the gender's name") \
	W(ferrum, "iron; also a sword that is made of it") \
	W(filia, "a daughter; the dative plural is filiabus") \
	W(finis, "an end, a border; in the plural a territory") \
	W(flumen, "a river; what flows has no name for its parts") \
	W(fons, "a spring, the source of a river") \
	W(frater, "a brother; the e is lost in other cases") \
	W(frumentum, "corn, grain; the army eats it") \
	W(gladius, "a short sword; a small one is a flower") \
	W(habeo, "I have; also I hold for") \
	W(hora, "an hour; in summer it is longer") \
	W(hortus, "a garden; its vegetables are holera") \
	W(hostis, "an enemy of the state; a private one is inimicus") \
	W(ignis, "fire; its ablative may end in i") \
	W(insula, "an island; in the city a block of flats") \
	W(iter, "a way, a journey; its genitive is itineris") \
	W(labor, "work, toil; as a verb it means I slip") \
	W(lacus, "a lake; the dative plural is lacubus") \
	W(lapis, "a stone; along roads it counts miles") \
	W(legio, "a legion, of ten cohorts") \
	W(lego, "I read, I gather; the eyes collect letters") \
	W(liber, "a book; with a long i, free") \
	W(littera, "a letter of the alphabet; in the plural a letter that is sent") \
	W(locus, "a place; its plural may be neuter") \
	W(luna, "the moon; her month has twenty-nine days and a half") \
	W(lupus, "a wolf; spoken of, it comes") \
	W(magister, "a teacher; his staff is the ferula") \
	W(mare, "the sea; its ablative is mari") \
	W(mater, "a mother; a tongue is learnt from her") \
	W(mensa, "a table; the first noun of the grammar") \
	W(miles, "a soldier; its genitive is militis") \
	W(mons, "a mountain; those in labour bear a mouse") \
	W(mors, "death; it knocks at all doors with the same foot") \
	W(navis, "a ship; the accusative may be navim") \
	W(nox, "night; its plural genitive is noctium") \
	W(oculus, "an eye; also the bud of a plant") \
	W(opus, "a work; with est it says that there is need") \
	W(panis, "bread; with the games it kept the city quiet") \
	W(pater, "a father; his power has its own law") \
	W(pes, "a foot, of a body, of a mountain or of a verse") \
	W(pons, "a bridge; who makes one is a pontifex") \
	W(porta, "a gate; the teacher's example beside mensa") \
	W(puella, "a girl; she appears in the first sentence of the book") \
	W(puer, "a boy; he keeps his e") \
	W(rex, "a king; the city had seven of them") \
	W(rosa, "a rose; the poet's example of what fades") \
	W(sal, "salt; in the plural wit") \
	W(schola, "a school; first it meant leisure") \
	W(scribo, "I write; what is written stays") \
	W(silva, "a wood, a forest; also a heap of notes") \
	W(verbum, "a word; also a verb") \
	W(vita, "life; the art is longer")
