#include "blorb_store.h"

const char *blorb_store_sentence(uint64_t error)
{
    switch (error) {
    case BLORB_STORE_MEMORY:
        return "there is not enough memory";
    case BLORB_STORE_REACH:
        return "the folder of the file cannot be reached, or not be locked";
    case BLORB_STORE_BUSY:
        return "another program is at work in the folder of the file";
    case BLORB_STORE_OWN_NAME:
        return "names that end in .undo, .table or .blorb-temp are for the journal and the finding table of a file and for what is being written";
    case BLORB_STORE_NOT_LOADED:
        return "no file is loaded";
    case BLORB_STORE_LOOKING:
        return "the file was loaded to be looked at, not to be edited";
    case BLORB_STORE_NOT_PLAIN:
        return "this is not a plain file";
    case BLORB_STORE_OPEN:
        return "the file cannot be opened";
    case BLORB_STORE_READ:
        return "the file cannot be read";
    case BLORB_STORE_JOURNAL_DAMAGED:
        return "the journal is damaged";
    case BLORB_STORE_JOURNAL_NOT_ITS:
        return "the journal is not this file's, which another program has changed or replaced";
    case BLORB_STORE_JOURNAL_ADRIFT:
        return "the journal was written under the ADRIFT profile";
    case BLORB_STORE_JOURNAL_PLAIN:
        return "the journal was written under the plain profile";
    case BLORB_STORE_JOURNAL_NEWER:
        return "the journal was written by a newer version of this library";
    case BLORB_STORE_JOURNAL_OTHER:
        return "what has the name of the journal is none";
    case BLORB_STORE_JOURNAL_LINK:
        return "what has the name of the journal is a symbolic link";
    case BLORB_STORE_JOURNAL_READ:
        return "the journal cannot be read";
    case BLORB_STORE_NOT_SAVED:
        return "the file is as it was, since the new one cannot be written";
    case BLORB_STORE_UNCONFIRMED:
        return "the new file is in place, but the disk has not confirmed it";
    case BLORB_STORE_UNDO_LEFT:
        return "after a save without undo the earlier edits could not be undone any more";
    case BLORB_STORE_UNSAVED:
        return "there are edits that are not saved";
    case BLORB_STORE_TABLE_OLD:
        return "the file is edited, but its finding table is still the old one";
    case BLORB_STORE_TABLE_UNCONFIRMED:
        return "the new finding table is in place, but the disk has not confirmed it";
    case BLORB_STORE_TABLE_NOT_WRITTEN:
        return "the finding table cannot be written";
    case BLORB_STORE_NO_TABLE:
        return "there is no finding table beside the file";
    case BLORB_STORE_TABLE_READ:
        return "the finding table cannot be read";
    case BLORB_STORE_TABLE_OTHER:
        return "what has the name of the finding table is not a plain file";
    case BLORB_STORE_TAKEN:
        return "this name is taken";
    case BLORB_STORE_UNDO_TAKEN:
        return "the journal of an older file of this name is still there";
    case BLORB_STORE_UNDO_NAME_TAKEN:
        return "what has the name that the journal of the new file needs is no journal";
    case BLORB_STORE_UNDO_NAME_READ:
        return "what has the name of the new file's journal cannot be read";
    case BLORB_STORE_LONG_NAME:
        return "the name is too long: edits would find no name for the journal";
    case BLORB_STORE_NOT_CREATED:
        return "the new file cannot be written";
    case BLORB_STORE_NAMED_TWICE:
        return "the new file is in place, but the name that it was written under, with .blorb-temp at its end, cannot be removed";
    case BLORB_STORE_NOT_FORGOTTEN:
        return "the journal cannot be removed";
    case BLORB_STORE_FORGOTTEN_UNCONFIRMED:
        return "the journal is gone, but the disk has not confirmed it";
    default:
        return error < BLORB_STORE_MEMORY ? blorb_sentence(error) : "this number is no error of the library";
    }
}
