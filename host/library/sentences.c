/*
 * blorb_sentence, the one call of the archive that is not proved but tested (host/tests/interface/constants.c). It allocates nothing and needs
 * nothing of the C library. Every refusal of blorb.h has its case here.
 */
#include "blorb.h"

const char *blorb_sentence(uint64_t refusal)
{
    switch (refusal) {
    case BLORB_DONE:
        return "the call was carried out";
    case BLORB_PROFILE:
        return "there is no such profile: it is neither plain nor ADRIFT";
    case BLORB_TOO_LONG:
        return "the file is longer than 16,777,216 bytes";
    case BLORB_TOO_SHORT:
        return "the file has fewer than 12 bytes";
    case BLORB_NO_FORM:
        return "the file does not begin with 'FORM', so it is no Blorb file";
    case BLORB_NO_IFRS:
        return "the file's form type is not 'IFRS', so it is no Blorb file";
    case BLORB_FORM_LENGTH:
        return "the FORM length is not the file's length less 8";
    case BLORB_CHUNK_CUT:
        return "the file ends within the header of a chunk";
    case BLORB_CHUNK_LENGTH:
        return "the length of a chunk runs past the end of the file";
    case BLORB_NO_PADDING:
        return "the file ends without the padding byte behind a chunk of odd length";
    case BLORB_PADDING:
        return "the padding byte behind a chunk of odd length is not zero";
    case BLORB_NO_INDEX:
        return "the first chunk is not the index 'RIdx'";
    case BLORB_SECOND_INDEX:
        return "there is a second index 'RIdx'";
    case BLORB_INDEX_LENGTH:
        return "the length of the index does not agree with its count of entries";
    case BLORB_TOO_MANY:
        return "the index has more than 4,096 entries";
    case BLORB_USAGE:
        return "the usage of an entry is none of Pict, Snd, Data and Exec";
    case BLORB_START:
        return "no chunk other than the index begins where an entry says";
    case BLORB_TYPE:
        return "the type of a chunk does not suit the usage of its entry";
    case BLORB_EXEC_NUMBER:
        return "an Exec has a number other than 0";
    case BLORB_REPEATED:
        return "an earlier entry has the same usage and number";
    case BLORB_ORDER:
        return "an entry's chunk stands before that of the entry before it: the index is not in the order of the chunks";
    case BLORB_SECOND_OPTIONAL:
        return "there is a second 'RelN' or 'Fspc' chunk";
    case BLORB_OPTIONAL_LENGTH:
        return "a 'RelN' chunk is not 2 bytes long, or an 'Fspc' chunk not 4";
    case BLORB_FRONTISPIECE:
        return "the frontispiece 'Fspc' names a picture that is not in the index or is a Rect";
    case BLORB_LENGTHS:
        return "a length exceeds its buffer";
    case BLORB_RECORD:
        return "the last edit cannot be undone";
    case BLORB_NOT_THERE:
        return "what was asked for is not there";
    case BLORB_SHARED:
        return "another resource shares the chunk, and would change too";
    case BLORB_FILE_ROOM:
        return "there is no room for the file";
    case BLORB_JOURNAL_ROOM:
        return "there is no room in the journal";
    case BLORB_NOTHING_TO_UNDO:
        return "there is nothing to undo";
    case BLORB_WHOLE_FORM:
        return "data of type 'FORM' must be a whole file that begins with 'FORM' and its own length less 8";
    case BLORB_TABLE_ROOM:
        return "there is no room for the finding table";
    case BLORB_TABLE_STALE:
        return "the finding table is not this file's: that row is the first that is wrong or missing; the table may be of an older or another file, or damaged";
    case BLORB_GROUP_SIZE:
        return "a chunk of the group file is cut short, runs past what holds it, or lacks the four bytes of its type";
    case BLORB_GROUP_DEPTH:
        return "a FORM or group stands deeper than 16 levels";
    case BLORB_GROUP_MEMBER:
        return "a chunk stands where it may not, the file is not one FORM, 'LIST' or 'CAT ', or something stands behind that";
    case BLORB_GROUP_PADDING:
        return "the padding byte behind a chunk of odd length is missing or not zero, in the group file";
    case BLORB_FORMS_ROOM:
        return "there is no room for the list of FORMs";
    case BLORB_NOT_AIFF:
        return "the sound is not a single 'FORM' of type 'AIFF' that its chunks fill exactly";
    case BLORB_COMMON:
        return "the 'COMM' chunk of the sound is missing, is not the only one, or is not 18 bytes long";
    case BLORB_RATE:
        return "the rate of the sound is not a whole number from 1 to 4,294,967,295";
    case BLORB_SECOND_RESO:
        return "there is a second 'Reso' chunk";
    case BLORB_RESO_LENGTH:
        return "the length of the 'Reso' chunk is not 24 plus a multiple of 28";
    case BLORB_RESO_NUMBER:
        return "the 'Reso' chunk has a number that may not be in it or lists a picture twice, or a width or height given is over 65,535";
    case BLORB_SECOND_RDES:
        return "there is a second 'RDes' chunk";
    case BLORB_RDES_LENGTH:
        return "the texts of the 'RDes' chunk do not fill it exactly";
    case BLORB_RDES_REPEATED:
        return "an earlier text is for the same usage and number";
    case BLORB_RDES_TEXT:
        return "a text is not UTF-8, or runs past the bytes given";
    case BLORB_RDES_ROOM:
        return "there is no room for the 'RDes' chunk, or it would be longer than 16,777,216 bytes";
    case BLORB_RESULT_TOO_LONG:
        return "the file would be longer than 16,777,216 bytes";
    case BLORB_RESULT_SECOND_INDEX:
        return "a resource may not have the index's type 'RIdx'";
    case BLORB_RESULT_TOO_MANY:
        return "the index would have more than 4,096 entries";
    case BLORB_RESULT_USAGE:
        return "there is no such usage";
    case BLORB_RESULT_TYPE:
        return "the type or its data does not suit the usage";
    case BLORB_RESULT_EXEC_NUMBER:
        return "an Exec has the number 0 and no other";
    case BLORB_RESULT_REPEATED:
        return "the file has a resource with this usage and number";
    case BLORB_RESULT_FRONTISPIECE:
        return "the frontispiece 'Fspc' names this picture, so it must stay and be no Rect";
    default:
        return "this number is no refusal of the library";
    }
}
