# Writes a script for `replay`, and the output that the protocol asks for.
#
#     awk -v kind=KIND -v count=N .. -v script=FILE -v wanted=FILE -f bench/scripts.awk
#
# calls   COUNT requests by one connection, which has made a queue after OTHERS of other keys: sends and receives in turn,
#         of texts of SIZE bytes, TOGETHER of them in a line. If WAITING is given, so many other processes wait meanwhile,
#         which is saved before: to receive from the OTHERS in turn, or with SAME not 0 from the queue, for other types.
#         If SAVING is given, each line is followed by a save; before the first one is saved, and each of the OTHERS has
#         got eight messages of 2000 bytes, and with SAVING above 1 a segment of 1 MiB has been written full
# gets    COUNT gets of the queue by its key, TOGETHER of them in a line; with ALIKE not 0 the other keys were chosen so
#         that they stand where this one does in the table of keys
# lists   COUNT lists of two operations with SEM_UNDO by one connection, TOGETHER of them in a line, on the last semaphore
#         of a set of SIZE; OTHERS other sets, if there are any, have the rest of 512 semaphores; ADJUSTING other processes
#         have an adjustment at each semaphore, which is saved before
# mqs     COUNT requests by one connection on a POSIX queue: sends and receives in turn, of texts of SIZE bytes,
#         TOGETHER of them in a line; OTHERS other queues have names of 255 bytes that differ from its own in the last,
#         and HOLDING other processes have 32 descriptors each, on all queues in turn, which is saved before
# opens   COUNT opens of the queue and closes in turn, beside the same
# ticks   COUNT ticks while OPENED connections are open; then the last of these says HELLO
#
# A row of the table is a call: its opcode, its fields and what its reply brings. A field is its size in bytes, or
# `text` for the rest of the frame.

function row(call, number, asks, brings) {
	opcode[call] = number
	fields[call] = asks
	body[call] = brings
}

# The number in so many bytes, the most significant one first.
function spelled(bytes, number) {
	return sprintf("%0" 2 * bytes "x", number)
}

# Fields side by side; the values are parted by spaces.
function side_by_side(kinds, values, text,    kind, value, many, k, hex) {
	many = split(kinds, kind, " ")
	split(values, value, " ")
	hex = ""
	for (k = 1; k <= many; k++)
		hex = hex (kind[k] == "text" ? text : spelled(kind[k], value[k]))
	return hex
}

function frame(hex) {
	return spelled(4, length(hex) / 2) hex
}

function request(serial, call, values, text) {
	return frame(spelled(4, serial) opcode[call] side_by_side(fields[call], values, text))
}

# The reply of a request that is not refused.
function reply(conn, serial, call, values, text) {
	print conn " " frame(spelled(4, serial) spelled(2, 0) side_by_side(body[call], values, text)) > wanted
}

function open(conn) {
	print "0 open " conn > script
}

function data(conn, hex) {
	print "0 data " conn " " hex > script
}

# A user of its own says HELLO, and gets the other queues and then its own.
function enter(conn,    other) {
	open(conn)
	data(conn, request(1, "HELLO", "1000 100"))
	reply(conn, 1, "HELLO", conn)
	for (other = 1; other <= others; other++) {
		data(conn, request(2, "msgget", (alike ? chosen[other] : 2000 + other) " " create_0600))
		reply(conn, 2, "msgget", other)
	}
	queue = others + 1
	data(conn, request(2, "msgget", "1234 " create_0600))
	reply(conn, 2, "msgget", queue)
}

# Connection 1 gets its queue again and again.
function get(    number, piece, held) {
	piece = ""
	held = 0
	for (number = 1; number <= count; number++) {
		piece = piece request(number, "msgget", "1234 " create_0600)
		reply(1, number, "msgget", queue)
		if (++held == together || number == count) {
			data(1, piece)
			piece = ""
			held = 0
		}
	}
}

# The other queues get their messages, and the segment its bytes: 128 times 8192.
function fill(    other, number, piece) {
	for (other = 1; other <= others; other++) {
		piece = ""
		for (number = 1; number <= 8; number++) {
			piece = piece request(number, "msgsnd", other " 0 7", text_of(2000, number))
			reply(1, number, "msgsnd")
		}
		data(1, piece)
	}
	if (saving > 1) {
		# O_CREAT is 0x40, O_RDWR 2; the name is /full
		data(1, request(1, "shm_open", 64 + 2 " " 6 * 64, "2f66756c6c") request(2, "ftruncate", "0 1048576"))
		reply(1, 1, "shm_open", 0)
		reply(1, 2, "ftruncate")
		for (number = 0; number < 128; number++) {
			data(1, request(3, "shm_write", "0 " 8192 * number, text_of(8192, number)))
			reply(1, 3, "shm_write")
		}
	}
	print "save" > script
}

# The other processes come and wait.
function let_wait(    number) {
	for (number = 1; number <= waiting; number++) {
		open(1 + number)
		data(1 + number, request(1, "HELLO", "1000 100") \
			request(2, "msgrcv", same ? queue " 0 64 " (7 + number) : 1 + number % others " 0 64 0"))
		reply(1 + number, 1, "HELLO", 1 + number)
	}
	print "save" > script
}

# An operation with SEM_UNDO: the semaphore, and four digits of what is added.
function operation(semaphore, what) {
	return spelled(2, semaphore) what "1000"
}

# The other sets are there, and then the one of SIZE semaphores.
function make_sets(    other, rest) {
	open(1)
	data(1, request(1, "HELLO", "1000 100"))
	reply(1, 1, "HELLO", 1)
	rest = 512 - size
	for (other = 1; other <= others; other++) {
		length_of[other] = int(rest / (others - other + 1))
		rest -= length_of[other]
		data(1, request(2, "semget", 2000 + other " " length_of[other] " " create_0600))
		reply(1, 2, "semget", other)
	}
	length_of[others + 1] = size
	data(1, request(2, "semget", "1234 " size " " create_0600))
	reply(1, 2, "semget", others + 1)
}

# The other processes come, and add one to each semaphore.
function adjust(    conn, set, semaphore, piece, many, requests) {
	for (conn = 2; conn <= 1 + adjusting; conn++) {
		open(conn)
		data(conn, request(1, "HELLO", "1000 100"))
		reply(conn, 1, "HELLO", conn)
		requests = ""
		for (set = 1; set <= others + 1; set++) {
			piece = ""
			many = 0
			for (semaphore = 0; semaphore < length_of[set]; semaphore++) {
				piece = piece operation(semaphore, "0001")
				if (++many == 32 || semaphore == length_of[set] - 1) {
					requests = requests request(2, "semop", set, endless piece)
					reply(conn, 2, "semop")
					piece = ""
					many = 0
				}
			}
		}
		data(conn, requests)
	}
	print "save" > script
}

# Connection 1 performs its lists.
function perform(    number, piece, held) {
	piece = ""
	held = 0
	for (number = 1; number <= count; number++) {
		piece = piece request(number, "semop", others + 1, endless operation(size - 1, "0001") operation(size - 1, "ffff"))
		reply(1, number, "semop")
		if (++held == together || number == count) {
			data(1, piece)
			piece = ""
			held = 0
		}
	}
}

# The name of a POSIX queue: 254 bytes that all of them share, and one of its own.
function name_of(number,    k) {
	if (shared == "") {
		shared = "2f"
		for (k = 2; k <= 254; k++)
			shared = shared "71"
	}
	return shared spelled(1, 65 + number)
}

# A call on the POSIX queue of this number, or on a descriptor, and its reply; the reply to an open brings a descriptor.
function open_mq(conn, serial, number, descriptor) {
	# O_CREAT is 0x40, O_RDWR 2
	reply(conn, serial, "mq_open", descriptor)
	return request(serial, "mq_open", 64 + 2 " " 6 * 64 " 0 0 0", name_of(number))
}

function close_mq(conn, serial, descriptor) {
	reply(conn, serial, "close")
	return request(serial, "close", descriptor)
}

# Connection 1 makes the other queues and then its own, whose descriptor is 0. The other processes come and open them.
function make_mqs(    conn, number, requests, k) {
	open(1)
	data(1, request(1, "HELLO", "1000 100"))
	reply(1, 1, "HELLO", 1)
	for (number = 1; number <= others; number++)
		data(1, open_mq(1, 2, number, 0) close_mq(1, 3, 0))
	data(1, open_mq(1, 2, 0, 0))
	for (conn = 2; conn <= 1 + holding; conn++) {
		open(conn)
		reply(conn, 1, "HELLO", conn)
		requests = request(1, "HELLO", "1000 100")
		for (k = 0; k < 32; k++)
			requests = requests open_mq(conn, 2, k % (others + 1), k)
		data(conn, requests)
	}
	print "save" > script
}

# Connection 1 sends and receives each text, or opens and closes the queue.
function use_mq(    number, piece, held, text) {
	piece = ""
	held = 0
	for (number = 1; number <= count; number++) {
		if (kind == "opens")
			piece = piece (number % 2 == 1 ? open_mq(1, number, 0, 1) : close_mq(1, number, 1))
		else {
			text = text_of(size, int((number + 1) / 2))
			if (number % 2 == 1) {
				piece = piece request(number, "mq_send", 0, endless spelled(4, 7) text)
				reply(1, number, "mq_send")
			} else {
				piece = piece request(number, "mq_receive", 0, endless spelled(4, 8192))
				reply(1, number, "mq_receive", 7, text)
			}
		}
		if (++held == together || number == count) {
			data(1, piece)
			piece = ""
			held = 0
		}
	}
}

# A text of so many bytes that begins with the number, where it has four.
function text_of(bytes, number) {
	while (length(filler) < 2 * bytes)
		filler = filler "5a"
	return bytes < 4 ? substr(filler, 1, 2 * bytes) : spelled(4, number) substr(filler, 1, 2 * bytes - 8)
}

# Connection 1 sends and receives each text.
function alternate(    number, piece, held, text) {
	piece = ""
	held = 0
	for (number = 1; number <= count; number++) {
		text = text_of(size, int((number + 1) / 2))
		if (number % 2 == 1) {
			piece = piece request(number, "msgsnd", queue " 0 7", text)
			reply(1, number, "msgsnd")
		} else {
			piece = piece request(number, "msgrcv", queue " 0 " size " 7")
			reply(1, number, "msgrcv", "7", text)
		}
		if (++held == together || number == count) {
			data(1, piece)
			if (saving != "")
				print "save" > script
			piece = ""
			held = 0
		}
	}
}

BEGIN {
	row("HELLO", "01", "4 4", "4")
	row("msgget", "0a", "4 4", "4")
	row("msgsnd", "0b", "4 4 8 text", "")
	row("msgrcv", "0c", "4 4 4 8", "8 text")
	row("semget", "14", "4 4 4", "4")
	# Its text is the timeout and the operations.
	row("semop", "15", "4 text", "")
	row("mq_open", "28", "4 4 1 4 4 text", "4")
	row("close", "03", "4", "")
	row("shm_open", "3c", "4 4 text", "4")
	row("ftruncate", "3e", "4 8", "")
	row("shm_write", "40", "4 8 text", "")
	# Their texts begin with the deadline; then comes the priority or the size.
	row("mq_send", "2a", "4 text", "")
	row("mq_receive", "2b", "4 text", "4 text")
	endless = "ffffffffffffffff"
	# IPC_CREAT is 0x200
	create_0600 = 512 + 6 * 64
	printf "" > script
	printf "" > wanted
	# Keys whose hash has the top and the low eight bits of that of 1234, with the fixed seed of the index map's hasher: in
	# a table of any size up to 3,000 entries a look-up of one compares with each that is there.
	split("25891 66592 67039 131551 158421 229201 234102 257653 317423 345478 387984 453382 459054 498814 547513 652520 " \
		"685128 793461 808762 812744 852688 855761 885617 887761 953937 1014050 1019476 1023605 1165704 1173969 1207409",
		chosen, " ")

	if (kind == "calls") {
		enter(1)
		if (waiting != "")
			let_wait()
		if (saving != "")
			fill()
		alternate()
	} else if (kind == "gets") {
		enter(1)
		get()
	} else if (kind == "lists") {
		make_sets()
		adjust()
		perform()
	} else if (kind == "mqs" || kind == "opens") {
		make_mqs()
		use_mq()
	} else if (kind == "ticks") {
		for (conn = 1; conn <= opened; conn++)
			open(conn)
		for (moment = 1; moment <= count; moment++)
			print moment " tick" > script
		data(opened, request(1, "HELLO", "1000 100"))
		reply(opened, 1, "HELLO", "1")
	} else {
		print "scripts.awk: no kind " kind > "/dev/stderr"
		exit 1
	}
}
