# The calls that phone.h declares, a name a line; and as what the linker asks for: the symbols of a library that are seen.
$(OUT)/calls: $(HEADER)
	mkdir -p $(OUT)
	sed -n '/^static/d;s/^[a-z].*[ *]\(phone_[a-z0-9_]*\)(.*/\1/p' $< >$@
$(OUT)/calls.map: $(OUT)/calls
	{ echo 'PHONE_3 { global:'; sed 's/$$/;/' $<; echo 'local: *; };'; } >$@
